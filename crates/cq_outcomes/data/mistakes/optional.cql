typeside T = literal { types text literals text }

schema Always = literal : T {
  entities Customer Order
  foreign_keys by : Order -> Customer
  attributes name : Customer -> text number : Order -> text }

schema Known = literal : T {
  entities Customer Order Sale
  foreign_keys of : Sale -> Order to : Sale -> Customer
  attributes name : Customer -> text number : Order -> text }

instance Each = import_csv "examples/recipes/optional/always" : Always
instance Some = import_csv "examples/recipes/optional/known" : Always
