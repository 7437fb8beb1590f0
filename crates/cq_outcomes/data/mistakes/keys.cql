typeside T = literal { types text literals text }

schema Lists = literal : T {
  entities Customer Member
  attributes key name mail : Customer -> text number nick address : Member -> text }

schema Pairs = literal : T {
  entities Customer Member Match
  foreign_keys customer : Match -> Customer member : Match -> Member
  attributes key name mail : Customer -> text number nick address : Member -> text }

schema People = literal : T {
  entities Customer Member Person
  foreign_keys buyer : Customer -> Person reader : Member -> Person
  attributes key : Customer -> text number : Member -> text name nick mail : Person -> text }

query Find = literal : Lists -> Pairs {
  entity Customer -> { from c : Customer attributes key -> key(c) name -> name(c) mail -> mail(c) }
  entity Member -> { from m : Member attributes number -> number(m) nick -> nick(m) address -> address(m) }
  entity Match -> {
    from c : Customer m : Member
    where mail(c) = address(m)
    foreign_keys customer -> { c -> c } member -> { m -> m } } }

query Same = literal : People -> Pairs {
  entity Customer -> {
    from c : Customer
    attributes key -> key(c) name -> name(buyer(c)) mail -> mail(buyer(c)) }
  entity Member -> {
    from m : Member
    attributes number -> number(m) nick -> nick(reader(m)) address -> mail(reader(m)) }
  entity Match -> {
    from c : Customer m : Member
    where buyer(c) = reader(m)
    foreign_keys customer -> { c -> c } member -> { m -> m } } }

instance Given = import_csv "examples/recipes/matched" : Lists
instance Found = eval Find Given
instance Merged = coeval Same Found
