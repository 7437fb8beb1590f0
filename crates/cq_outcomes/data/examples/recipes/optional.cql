// An empty cell of a foreign key is a row that nobody knows, not the want of one: each order has a customer. Where there
// may be none, the key gets an entity of its own, here Sale, with a row for each order of which a customer is known.
typeside T = literal { types text literals text }

schema Always = literal : T {
  entities Customer Order
  foreign_keys by : Order -> Customer
  attributes name : Customer -> text number : Order -> text }

schema Known = literal : T {
  entities Customer Order Sale
  foreign_keys of : Sale -> Order to : Sale -> Customer
  attributes name : Customer -> text number : Order -> text }

instance Each = import_csv "examples/recipes/optional/always" : Always
instance Some = import_csv "examples/recipes/optional/known" : Known
