typeside T = literal { types text literals text }

schema Shop = literal : T {
  entities Customer Order
  foreign_keys by : Order -> Customer
  attributes name street : Customer -> text number : Order -> text
}

// Pair has a row for each two orders, Buyer one for each customer; `first` leads from a pair to a buyer.
schema Answer = literal : T {
  entities Pair Buyer
  foreign_keys first : Pair -> Buyer
  attributes left right : Pair -> text name : Buyer -> text
}

query SameStreet = literal : Shop -> Answer {
  entity Pair -> {
    from o p : Order
    where street(by(o)) = street(p)
    attributes left -> number(o) right -> number(p)
    foreign_keys first -> { c -> o.by } }
  entity Buyer -> { from c : Customer attributes name -> name(c) }
}

instance Orders = literal : Shop {
  generators ann ben : Customer o1 o2 o3 : Order
  equations
    name(ann) = "Ann Müller" street(ann) = "1 Elm St"
    name(ben) = "Ben Li" street(ben) = "1 Elm St"
    by(o1) = ann number(o1) = "2026-0117"
    by(o2) = ben number(o2) = "2026-0118"
    number(o3) = "2026-0119"
}

instance Answers = eval SameStreet Orders
