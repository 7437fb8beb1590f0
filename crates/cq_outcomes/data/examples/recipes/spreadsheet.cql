// A spreadsheet's export, brought into the form that an import takes: docs/RECIPES.md has the commands.
typeside T = literal { types text literals text }

schema List = literal : T {
  entities Person
  attributes name mail phone : Person -> text }

instance Imported = import_csv "examples/recipes/spreadsheet" : List
