typeside Ty = literal {
  types string nat
  constants Al Bob Bo Carl Math CS : string
            zero : nat
  functions plus : nat, nat -> nat
}

schema S = literal : Ty {
  entities Employee Department
  foreign_keys
    manager : Employee -> Employee
    worksIn : Employee -> Department
    secretary : Department -> Employee
  path_equations
    manager.worksIn = worksIn
    secretary.worksIn = Department
  attributes
    first last : Employee -> string
    age cummulative_age : Employee -> nat
    name : Department -> string
  observation_equations
    forall e. cummulative_age(e) = plus(age(e), age(manager(e)))
}

instance I = literal : S {
  generators
    a b c : Employee
    m s : Department
  equations
    first(a) = Al
    first(b) = Bob last(b) = Bo
    first(c) = Carl
    name(m) = Math name(s) = CS
    age(a) = age(c) age(c) = zero
    manager(a, b) = b manager(b) = b manager(c) = c
    worksIn(a) = m worksIn(b) = m worksIn(c) = s
    secretary(s) = c secretary(m) = b
}
