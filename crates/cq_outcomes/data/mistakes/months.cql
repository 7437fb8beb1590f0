typeside T = literal { types text literals text }

schema List = literal : T {
  entities Person
  attributes mail name street : Person -> text }

schema Months = literal : T {
  entities Before Now
  attributes mail_before name_before street_before : Before -> text mail_now name_now street_now : Now -> text }

schema Report = literal : T {
  entities Stayed
  attributes mail old_street new_street : Stayed -> text }

mapping IntoBefore = literal : List -> Months {
  entity Person -> Before
    attributes mail -> mail_before name -> name_before street -> street_before }

mapping IntoNow = literal : List -> Months {
  entity Person -> Now
    attributes mail -> mail_now name -> name_now street -> steet_now }

query Stay = literal : Months -> Report {
  entity Stayed -> {
    from b : Before n : Now
    where mail_before(b) = mail_now(n)
    attributes mail -> mail_now(n) old_street -> street_before(b) new_street -> street_now(n) } }

instance Last = import_csv "examples/recipes/months/last" : List
instance This = import_csv "examples/recipes/months/now" : List
instance MovedLast = sigma IntoBefore Last
instance MovedThis = sigma IntoNow This
instance Beside = coproduct MovedLast + MovedThis : Months
instance Stays = eval Stay Beside
