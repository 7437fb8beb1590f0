// Solution of the second exercise: the chief of a chief is that chief, so the rows end. Without the path equation each
// employee would have a chief who has a chief, and so on: 61 Depth.
typeside T = literal { types text literals text }

schema Staff = literal : T {
  entities Employee
  foreign_keys chief : Employee -> Employee
  path_equations chief.chief = chief
  attributes name : Employee -> text
}

instance Team = literal : Staff {
  generators ann ben : Employee
  equations name(ann) = "Ann" name(ben) = "Ben" chief(ann) = ben
}
