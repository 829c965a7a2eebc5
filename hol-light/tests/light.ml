let LIGHT_EXISTS = prove
 (`?x:bool#bool. ~(FST x /\ SND x)`,
  EXISTS_TAC `F,F` THEN REWRITE_TAC[FST; SND]);;

let light_tybij = new_type_definition "light" ("mk_light","dest_light") LIGHT_EXISTS;;

let RED = new_definition `RED = mk_light(T,F)`;;

let ALIAS = CONJ_SYM;;

let DEST_RED = prove
 (`dest_light RED = (T,F)`,
  REWRITE_TAC[RED; GSYM(CONJUNCT2 light_tybij)]);;
