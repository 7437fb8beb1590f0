typeside T = literal { types text literals text }

schema Shop = literal : T { entities Customer attributes name street : Customer -> text }

instance Both = literal : Shop {
  generators c1 d1 : Customer
  equations
    name(c1) = "Ann Müller" name(d1) = "Anna Müller" street(c1) = "2 Oak St" street(d1) = "1 Elm St"
    c1 = d1
}
