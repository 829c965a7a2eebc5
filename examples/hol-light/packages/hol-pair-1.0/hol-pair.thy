name: hol-pair
version: 1.0
requires: hol-bool
show: "Data.Bool"
show: "Data.Pair"
show: "Data.Unit"
show: "Function"

main {
  article: "hol-pair.art"
  interpret: type "1" as "Data.Unit.unit"
  interpret: type "prod" as "Data.Pair.*"
  interpret: const "T" as "Data.Bool.T"
  interpret: const "F" as "Data.Bool.F"
  interpret: const "/\\" as "Data.Bool./\\"
  interpret: const "\\/" as "Data.Bool.\\/"
  interpret: const "==>" as "Data.Bool.==>"
  interpret: const "~" as "Data.Bool.~"
  interpret: const "!" as "Data.Bool.!"
  interpret: const "?" as "Data.Bool.?"
  interpret: const "?!" as "Data.Bool.?!"
  interpret: const "COND" as "Data.Bool.cond"
  interpret: const "@" as "select"
  interpret: const "o" as "Function.o"
  interpret: const "I" as "Function.id"
  interpret: const "one" as "Data.Unit.()"
  interpret: const "," as "Data.Pair.,"
  interpret: const "FST" as "Data.Pair.fst"
  interpret: const "SND" as "Data.Pair.snd"
}
