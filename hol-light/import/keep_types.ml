(* ========================================================================= *)
(* Loaded right after fusion.ml, this keeps the two theorems of each basic   *)
(* type definition. HOL Light's kernel doesn't, and the types that           *)
(* define_type makes (sum, option, list, ..) have them nowhere else.         *)
(* ========================================================================= *)

let kept_type_theorems = ref ([] : (thm * thm) list);;

let new_basic_type_definition name constants th =
  let both = new_basic_type_definition name constants th in
  kept_type_theorems := both :: !kept_type_theorems;
  both;;
