typeside T = literal { types text literals text }

schema Lists = literal : T {
  entities Customer Subscriber Mailbox Person
  foreign_keys
    mail : Customer -> Mailbox
    news : Subscriber -> Mailbox
    owner : Mailbox -> Person
  attributes
    name street : Customer -> text
    nick : Subscriber -> text
    called home : Person -> text
  observation_equations
    forall c : Customer. street(c) = home(owner(mail(c)))
    forall s : Subscriber. nick(s) = called(owner(news(s)))
}

// The files are examples/lists/Customer.csv and so on, one for each entity.
instance Merged = import_csv "examples/list" : Lists
