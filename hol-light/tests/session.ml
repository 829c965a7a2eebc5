import_names "hol-light/standard-names";;
let results = import_log "out/nand/nand.log";;
loadt "out/nand/names.ml";;
REWRITE_CONV [NAND_SELF; NAND_TRUE] `NAND T (NAND q q)`;;
