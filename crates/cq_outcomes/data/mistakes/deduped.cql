typeside T = literal { types text literals text }

schema List = literal : T {
  entities Entry
  attributes name mail phone : Entry -> text }

// The same list, and a row for each two entries with one address.
schema Pairs = literal : T {
  entities Entry Match
  foreign_keys one other : Match -> Entry
  attributes name mail phone : Entry -> text }

query Find = literal : List -> Pairs {
  entity Entry -> { from e : Entry attributes name -> name(e) mail -> mail(e) phone -> phone(e) }
  entity Match -> {
    from a b : Entry
    where mail(a) = mail(b)
    foreign_keys one -> { e -> a } other -> { e -> b } } }

// The two of a match are the same entry.
query Find = literal : List -> Pairs {
  entity Entry -> { from e : Entry attributes name -> name(e) mail -> mail(e) phone -> phone(e) }
  entity Match -> { from e : Entry foreign_keys one -> { e -> e } other -> { e -> e } } }

instance Given = import_csv "examples/recipes/deduped" : List
instance Found = eval Find Given
instance Merged = coeval Same Found
