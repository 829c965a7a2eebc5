name: hol-pair
version: 1.0
requires: hol-bool
show: "Data.Bool"
show: "Data.Pair"
show: "Data.Unit"
show: "Function"

hol-bool {
  package: hol-bool-1.0
}

hol-pair {
  import: hol-bool
  package: hol-pair-1.0
}

main {
  import: hol-pair
}
