typeside T = literal {
  types Zip Text
  literals Text
  constants "06532" "10002" : Zip
}

schema S = literal : T {
  entities Person City
  foreign_keys
    boss : Person -> Person
    home : Person -> City
  attributes
    name : Person -> Text
    zip : Person -> Zip
    label : City -> Text
}

instance I = import_csv "mistakes/folders/semicolons" : S
