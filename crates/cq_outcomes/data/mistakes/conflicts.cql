typeside T = literal { types text literals text }

schema Lists = literal : T {
  entities Customer Member
  attributes mail street : Customer -> text address home : Member -> text }

schema Pairs = literal : T {
  entities Customer Member Match
  foreign_keys customer : Match -> Customer member : Match -> Member
  attributes mail street : Customer -> text address home : Member -> text }

schema People = literal : T {
  entities Person
  attributes mail shop_street club_street : Person -> text }

schema Report = literal : T {
  entities Doubt
  attributes who shop club : Doubt -> text }

query Find = literal : Lists -> Pairs {
  entity Customer -> { from c : Customer attributes mail -> mail(c) street -> street(c) }
  entity Member -> { from m : Member attributes address -> address(m) home -> home(m) }
  entity Match -> {
    from c : Customer m : Member
    where mail(c) = address(m)
    foreign_keys customer -> { c -> c } member -> { m -> m } } }

query Same = literal : People -> Pairs {
  entity Customer -> { from p : Person attributes mail -> mail(p) street -> shop_street(p) }
  entity Member -> { from p : Person attributes address -> mail(p) home -> club_street(p) }
  entity Match -> { from p : Person foreign_keys customer -> { p -> p } member -> { p -> p } } }

query Ask = literal : People -> Report {
  entity Doubt -> {
    from p : Person
    attributes who -> mail(p) shop -> shop_street(p) club -> club_street(p) } }

instance Given = import_csv "examples/recipes/conflicts" : Lists
instance Found = eval Find Given
instance Merged = coeval Same Found
instance Doubts = eval Ask Given
