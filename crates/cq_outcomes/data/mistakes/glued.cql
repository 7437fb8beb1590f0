typeside T = literal { types text literals text }
schema List = literal : T {
  entities Person Place
  foreign_keys lives : Person -> Place
  attributes name mail : Person -> text town : Place -> text }
instance Shop = import_csv "examples/shop" : List
instance Club = import_csv "examples/club" : List
instance Known = literal : List { generators ann ben : Person }
transform inShop = literal : Known -> Shop { generators ann -> g1 ben -> g2 }
transform inClub = literal : Known -> Club { generators ann -> g2 ben -> g9 }
instance Both = pushout inShop inClub
