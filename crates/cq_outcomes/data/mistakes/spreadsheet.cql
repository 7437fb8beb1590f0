typeside T = literal { types text }

schema List = literal : T {
  entities Person
  attributes name mail phone : Person -> text }

instance Imported = import_csv "examples/recipes/spreadsheet" : List
