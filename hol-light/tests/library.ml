(* Fed to a session of HOL Light's core up to pair.ml: imports logs of the recorded library, whose theorems it has already, and logs
   that say something else. Prints a line for each, after IMPORT. *)

let known =
  Derived.Sequents.of_list
    (Session.kept_type_theorems () @ definitions () @ Session_values.theorems ());;

let sizes () =
  List.length (types ()), List.length (constants ()), List.length (axioms ());;

let try_import name =
  let before = sizes () in
  let report =
    try
      let results = import_log ("out/test/" ^ name ^ ".log") in
      let of_session = List.filter (fun th -> Derived.Sequents.mem th known) results in
      Printf.sprintf "%d theorems, %d of them the session's"
        (List.length results) (List.length of_session)
    with Failure reason -> reason in
  Printf.printf "\nIMPORT %s: %s; the session is %s\n%!" name report
    (if sizes () = before then "unchanged" else "changed");;

try_import "other_type";;
try_import "other_definition";;
try_import "assumption";;
try_import "assumption_with_hypothesis";;
try_import "no_theorem";;

import_supply [SYM (EQT_INTRO (REFL `\p:bool->bool. p`))];;
try_import "other_definition";;

import_names "hol-light/standard-names";;
try_import "hol-bool";;
try_import "hol-pair";;
