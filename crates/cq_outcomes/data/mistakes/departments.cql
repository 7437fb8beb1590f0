typeside T = literal {
  types text
  constants Maths Physics Ada Bea "555 17" : text
}

schema Office = literal : T {
  entities Department Employee
  foreign_keys
    secretary : Department -> Employee
  path_equations
    Department = secretary.worksIn
  attributes
    called phone : Department -> text
    first : Employee -> text
}

// The one office has maths and physics, the other has phys.
instance Both = literal : Office {
  generators
    maths physics phys : Department
    ada bea cleo : Employee
  equations
    called(maths) = Maths secretary(maths) = ada
    called(physics) = Physics secretary(physics) = bea
    phone(phys) = "555 17" secretary(phys) = bea
    first(ada) = Ada first(bea) = Bea
    worksIn(cleo) = phys
}
