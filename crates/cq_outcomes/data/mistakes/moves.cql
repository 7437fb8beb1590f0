typeside T = literal { types text literals text }

schema Two = literal : T {
  entities Customer Account
  foreign_keys has : Customer -> Account
  attributes name : Customer -> text mail : Account -> text
}

schema One = literal : T {
  entities Person
  foreign_keys same : Person -> Person
  path_equations same = Person
  attributes called reached : Person -> text
}

mapping Join = literal : Two -> One {
  entity Customer -> Person
    attributes name -> called
  entity Account -> Person
    attributes mail -> reached
}

instance Lists = literal : Two {
  generators c1 c2 : Customer a1 a2 : Account
  equations
    has(c1) = a1 name(c1) = "Ann" mail(a1) = "ann@example.org"
    has(c2) = a2 name(c2) = "Ben"
}

instance People = sigma Join Lists
instance Back = delta Join People
