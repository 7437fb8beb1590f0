typeside T = literal {
  types text
  constants Ann Ben Cleo "1 Elm St" "2 Oak St" : text
}

schema Lists = literal : T {
  entities Customer Subscriber Mailbox Person
  foreign_keys
    mail : Customer -> Mailbox
    news : Subscriber -> Mailbox
    owner : Mailbox -> Person
  attributes
    street : Customer -> text
    nick : Subscriber -> text
    name home : Person -> text
  observation_equations
    forall c : Customer. street(c) = home(owner(mail(c)))
    forall s : Subscriber. nick(s) = name(owner(news(s)))
}

// The shop has the customers c1 and c2, the newsletter the subscribers s1 and s2. c1 and s1
// gave the same address.
instance Merged = literal : Lists {
  generators
    c1 c2 : Customer
    s1 s2 : Subscriber
    m1 m2 : Mailbox
  equations
    mail(c1) = m1 street(c1) = "1 Elm St"
    mail(c2) = m2 street(c2) = "2 Oak St"
    news(s1) = m1 nick(s1) = Ann
    nick(s2) = c1
}
