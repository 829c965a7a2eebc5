(* ========================================================================= *)
(* Where an import takes place: on the bare kernel, or in a session that has *)
(* symbols and theorems of its own.                                          *)
(* ========================================================================= *)

module Context = struct

  type t =
    { (* Are symbols that exist taken as they are? *)
      takes_symbols : bool;
      (* May assumptions become axioms? *)
      makes_axioms : bool;
      (* HOL Light's name for the components of a name of a constant or of a *)
      (* type operator.                                                      *)
      symbol_name : Names.kind -> string list -> string option;
      (* For a type operator that exists: the two theorems of its definition *)
      (* |- abs (rep a) = a and |- p r = (rep (abs r) = r).                  *)
      type_theorems : string -> (thm * thm) option;
      (* For hypotheses and a conclusion: a theorem with that conclusion and *)
      (* some of these hypotheses. Asked for assumptions, and for |- c = t   *)
      (* where the log defines c as t and the session otherwise.             *)
      theorem : term list -> term -> thm option;
      (* How a refusal shows a term. *)
      show : term -> string }

  let bare =
    { takes_symbols = false;
      makes_axioms = true;
      symbol_name = (fun _ _ -> None);
      type_theorems = (fun _ -> None);
      theorem = (fun _ _ -> None);
      show = (fun _ -> "a term") }

end;;

(* How often the rarer ways were taken in all imports. *)

module Counts = struct

  let beside_definition = ref 0       (* symbols made beside their definition *)
  let made_again = ref 0              (* sequents made again after a definition *)
  let added_type_variables = ref 0    (* predicates that got type variables *)
  let coded_assumptions = ref 0       (* axioms for assumptions with hypotheses *)
  let reordered_operators = ref 0     (* other orders of type variables *)

  let all () =
    [ "beside", !beside_definition; "again", !made_again;
      "added", !added_type_variables; "coded", !coded_assumptions;
      "reordered", !reordered_operators ]

end;;
