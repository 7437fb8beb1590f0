// Solution of the first exercise of the tutorial: one equation more makes the two customers one, and the second name
// that was given is another text, so the file is refused with 63 Inconsistent.
typeside T = literal { types text literals text }

schema Shop = literal : T { entities Customer attributes name street : Customer -> text }

instance Both = literal : Shop {
  generators c1 d1 : Customer
  equations
    name(c1) = "Ann Müller" name(d1) = "Anna Müller" street(d1) = "1 Elm St"
    c1 = d1
}
