let NAND_DEF = new_definition `NAND p q <=> ~(p /\ q)`;;

let NAND_SYM = prove
 (`!p q. NAND p q <=> NAND q p`,
  REWRITE_TAC[NAND_DEF] THEN ITAUT_TAC);;

let NAND_SELF = prove
 (`!p. NAND p p <=> ~p`,
  REWRITE_TAC[NAND_DEF]);;

let NAND_TRUE = prove
 (`!p. NAND T p <=> ~p`,
  REWRITE_TAC[NAND_DEF]);;
