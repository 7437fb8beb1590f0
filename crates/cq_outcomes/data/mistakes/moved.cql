typeside T = literal { types text literals text }
schema Lists = literal : T {
  entities Customer Supplier
  attributes name country : Customer -> text title : Supplier -> text }
schema Book = literal : T {
  entities Contact
  attributes label land : Contact -> text
  observation_equations forall c. land(c) = "Germany" }
mapping Merge = literal : Lists -> Book {
  entity Customer -> Contact attributes name -> label country -> land
  entity Supplier -> Contact attributes title -> label }
instance Old = literal : Lists {
  generators ann : Customer mill : Supplier
  equations name(ann) = "Ann" title(mill) = "Mill" }
instance New = literal : Lists {
  generators ann ben : Customer mill : Supplier
  equations name(ann) = "Ann" name(ben) = "Ben" title(mill) = "Mill" }
transform grown = literal : Old -> New { generators ann -> ann mill -> mill }

// Into the book and back, with the transform.
instance OldBook = sigma Merge Old
instance NewBook = sigma Merge New
transform grownBook = sigma Merge grown : NewBook -> OldBook
instance OldBack = delta Merge OldBook
instance NewBack = delta Merge NewBook
transform grownBack = delta Merge grownBook : OldBack -> NewBack

// Where each row stands in what comes back, and both side by side, glued along that.
transform kept = unit Merge Old : Old -> OldBack
transform own = identity Old
instance Seen = pushout own kept

// Each row that came back, once more in the book, is a contact that was there.
instance Again = sigma Merge OldBack
transform merged = counit Merge OldBook : Again -> OldBook

// The same with a query, which asks for two contacts of one label.
schema Pairs = literal : T { entities Pair attributes word : Pair -> text }
query Same = literal : Book -> Pairs {
  entity Pair -> { from c d : Contact where label(c) = label(d) attributes word -> label(c) } }
instance OldPairs = eval Same OldBook
instance NewPairs = eval Same NewBook
transform grownPairs = eval Same grownBook : OldPairs -> NewPairs
instance OldTwins = coeval Same OldPairs
instance NewTwins = coeval Same NewPairs
transform grownTwins = coeval Same grownPairs : OldTwins -> NewTwins
transform found = counit_query Same OldBook : OldTwins -> OldBook
instance PairsAgain = eval Same OldTwins
transform asked = unit_query Same OldPairs : OldPairs -> PairsAgain
