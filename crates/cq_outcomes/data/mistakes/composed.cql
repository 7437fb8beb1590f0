typeside T = literal { types text literals text }

schema Shop = literal : T {
  entities Customer Order
  foreign_keys by : Order -> Customer
  attributes name street : Customer -> text number : Order -> text
}

schema Answer = literal : T {
  entities Pair Buyer
  foreign_keys first : Pair -> Buyer second : Pair -> Buyer
  attributes left right : Pair -> text name : Buyer -> text
}

query SameStreet = literal : Shop -> Answer {
  entity Pair -> {
    from o p : Order
    where street(by(o)) = street(by(p))
    attributes left -> number(o) right -> number(p)
    foreign_keys first -> { c -> o.by } second -> { c -> p.by } }
  entity Buyer -> { from c : Customer attributes name -> name(c) }
}

// What the newsletter wants to know: who could share a delivery with Ben.
schema Report = literal : T {
  entities Share
  attributes who order : Share -> text
}

query WithBen = literal : Answer -> Report {
  entity Share -> {
    from p : Pair
    where name(first(p)) = "Ben Li"
    attributes who -> name(second(p)) order -> right(p) }
}

query Shares = compose WithBen SameStreet

schema Names = literal : T { entities Person attributes called : Person -> text }

mapping Called = literal : Names -> Shop { entity Person -> Customer attributes called -> name }

query Customers = of_mapping Called

instance Orders = literal : Shop {
  generators ann ben : Customer o1 o2 o3 : Order
  equations
    name(ann) = "Ann Müller" street(ann) = "1 Elm St"
    name(ben) = "Ben Li" street(ben) = "1 Elm St"
    by(o1) = ann number(o1) = "2026-0117"
    by(o2) = ben number(o2) = "2026-0118"
    number(o3) = "2026-0119"
}

instance Answers = eval Shares Orders

instance People = eval Customers Orders
