name: hol-bool
version: 1.0
show: "Data.Bool"

main {
  article: "hol-bool.art"
  interpret: const "T" as "Data.Bool.T"
  interpret: const "F" as "Data.Bool.F"
  interpret: const "/\\" as "Data.Bool./\\"
  interpret: const "\\/" as "Data.Bool.\\/"
  interpret: const "==>" as "Data.Bool.==>"
  interpret: const "~" as "Data.Bool.~"
  interpret: const "!" as "Data.Bool.!"
  interpret: const "?" as "Data.Bool.?"
  interpret: const "?!" as "Data.Bool.?!"
}
