name: library
version: 1.0
description: Two packages joined: the second one's axiom is a theorem of the first

truth {
  package: truth-1.0
}

# In this block "T" is read as "Data.Bool.T", so its axiom |- T is the theorem that is imported, and no assumption.
equals-truth {
  import: truth
  package: equals-truth-1.0
  interpret: const "T" as "Data.Bool.T"
}

main {
  import: truth
  import: equals-truth
}
