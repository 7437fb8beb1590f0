typeside T = literal { types text literals text }

schema Lists = literal : T {
  entities Customer Member
  attributes name mail street : Customer -> text nick address : Member -> text }

// The same lists, and a row for each customer and member with one address.
schema Pairs = literal : T {
  entities Customer Member Match
  foreign_keys customer : Match -> Customer member : Match -> Member
  attributes name mail street : Customer -> text nick address : Member -> text }

schema People = literal : T {
  entities Person
  attributes name nick mail street : Person -> text }

query Find = literal : Lists -> Pairs {
  entity Customer -> { from c : Customer attributes name -> name(c) mail -> mail(c) street -> street(c) }
  entity Member -> { from m : Member attributes nick -> nick(m) address -> address(m) }
  entity Match -> {
    from c : Customer m : Member
    where mail(c) = address(m)
    foreign_keys customer -> { d -> c } member -> { m -> m } } }

// Each customer is a person, each member is one, and the two of a match are the same one.
query Same = literal : People -> Pairs {
  entity Customer -> { from p : Person attributes name -> name(p) mail -> mail(p) street -> street(p) }
  entity Member -> { from p : Person attributes nick -> nick(p) address -> mail(p) }
  entity Match -> { from p : Person foreign_keys customer -> { p -> p } member -> { p -> p } } }

instance Given = import_csv "examples/recipes/matched" : Lists
instance Found = eval Find Given
instance Merged = coeval Same Found
