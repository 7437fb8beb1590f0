typeside T = literal { types text literals text }

schema Shop = literal : T { entities Customer attributes name street : Customer -> text }
schema Found = literal : T { entities Neighbour attributes name : Neighbour -> text }

query InElmStreet = literal : Shop -> Found {
  entity Neighbour -> {
    from c : Custmer
    where street(c) = "1 Elm St"
    attributes name -> name(c) }
}

instance Customers = literal : Shop {
  generators ann ben cleo : Customer
  equations
    name(ann) = "Ann" street(ann) = "1 Elm St"
    name(ben) = "Ben" street(ben) = "2 Oak St"
    name(cleo) = "Cleo"
}

instance Neighbours = eval InElmStreet Customers
