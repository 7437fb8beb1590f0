typeside T = literal {
  types text status
  literals text
  constants open paid : status
}

schema Shop = literal : T {
  entities Customer Order
  foreign_keys by : Order -> Customer
  attributes
    name street : Customer -> text
    number : Order -> text
    state : Order -> status
}

// c1 of the shop and d1 of the branch are one customer.
instance Both = literal : Shop {
  generators
    c1 c2 d1 : Customer
    o1 o2 : Order
  equations
    name(c1) = "Ann Müller" street(d1) = "1 Elm St"
    nam(c2) = "Ben \"B\" Li"
    c1 = d1
    by(o1) = c1 number(o1) = "2026-0117" state(o1) = paid
    by(o2) = d1 number(o2) = "2026-0118"
}
