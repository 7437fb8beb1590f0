// Departments and their secretaries. Two offices wrote down the same departments in their own
// words; a secretary works in the department that she is the secretary of, so two entries with
// one secretary are one department.
typeside T = literal {
  types text
  constants Maths Physics Ada Bea "555 17" : text
}

schema Office = literal : T {
  entities Department Employee
  foreign_keys
    secretary : Department -> Employee
    worksIn : Employee -> Department
  path_equations
    Department = secretary.worksIn
  attributes
    called phone : Department -> text
    first : Employee -> text
}

// The one office has maths and physics, the other has phys.
instance Both = literal : Office {
  generators
    maths physics phys : Department
    ada bea cleo : Employee
  equations
    called(maths) = Maths secretary(maths) = ada
    called(physics) = Physics secretary(physics) = bea
    phone(phys) = "555 17" secretary(phys) = bea
    first(ada) = Ada first(bea) = Bea
    worksIn(cleo) = phys
}
