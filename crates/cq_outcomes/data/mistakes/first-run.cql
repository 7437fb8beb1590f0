typeside T = literal { types s constants Al Bob : s }
schema S = literal : T { entities E attributes x : E -> t }
instance I = literal : S { generators a b : E }
