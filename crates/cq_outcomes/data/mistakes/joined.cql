typeside T = literal { types text literals text }

schema Shop = literal : T {
  entities Customer Order
  foreign_keys by : Order -> Customer
  attributes name mail : Customer -> text number : Order -> text
}

schema Newsletter = literal : T {
  entities Subscriber
  attributes nick address : Subscriber -> text
}

schema_colimit Joined = quotient Shop + Newsletter : T {
  entity_equations Shop.Customer = Newsletter.Subscriber
  observation_equations forall p. Shop_mial(p) = Newsletter_address(p)
}

mapping FromShop = getMapping Joined Shop
mapping FromNewsletter = getMapping Joined Newsletter

instance Orders = literal : Shop {
  generators ann ben : Customer o1 : Order
  equations
    name(ann) = "Ann Müller" mail(ann) = "ann@example.org"
    name(ben) = "Ben Li"
    by(o1) = ann number(o1) = "2026-0117"
}

instance Readers = literal : Newsletter {
  generators cleo : Subscriber
  equations nick(cleo) = "Cleo" address(cleo) = "cleo@example.org"
}

instance MovedOrders = sigma FromShop Orders
instance MovedReaders = sigma FromNewsletter Readers
instance Both = coproduct MovedOrders + MovedReaders : Joined
instance Mailing = delta FromNewsletter Both
