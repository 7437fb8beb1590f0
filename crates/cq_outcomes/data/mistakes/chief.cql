typeside T = literal { types text literals text }

schema Staff = literal : T {
  entities Employee
  foreign_keys chief : Employee -> Employee
  attributes name : Employee -> text
}

instance Team = literal : Staff {
  generators ann ben : Employee
  equations name(ann) = "Ann" name(ben) = "Ben" chief(ann) = ben
}
