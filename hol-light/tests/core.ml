(* Fed to a session of HOL Light's whole core by ../measure, in a folder that has the log of the recorded core, core.log, and the
   names of its theorems in HOL Light, line by line in their order: imports the log. Prints IMPORT, the seconds before the import,
   those of the import, how many of the theorems the session has already, and how many of the names name the same theorem there. *)

let known =
  Derived.Sequents.of_list
    (Session.kept_type_theorems () @ definitions () @ Session_values.theorems ());;

let sizes () =
  List.length (types ()), List.length (constants ()), List.length (axioms ());;

(* The names of a list of results, from lines of names, each with its result. *)
let named_results lines results =
  let named line th =
    List.map (fun name -> name, th)
      (List.filter (fun name -> name <> "-") (String.split_on_char ' ' line)) in
  List.concat (List.map2 named lines results);;

let session_names =
  let table = Hashtbl.create 5000 in
  List.iter (fun (name, th) -> Hashtbl.replace table name th) (Session_values.named_theorems ());
  table;;

let is_named_so (name, th) =
  match Hashtbl.find_opt session_names name with
    Some other -> Derived.compare_sequents th other = 0
  | None -> false;;

import_names (import_folder ^ "/standard-names");;

let () =
  let before = Sys.time () and sizes_before = sizes () in
  let results = import_log "core.log" in
  let during = Sys.time () -. before in
  let of_session = List.filter (fun th -> Derived.Sequents.mem th known) results in
  let names = named_results (strings_of_file "names") results in
  let agreeing = List.filter is_named_so names in
  Printf.printf "\nIMPORT %.1f;%.1f;%d theorems, %d of them the session's, which is %s; %d of %d names agree\n%!"
    before during (List.length results) (List.length of_session)
    (if sizes () = sizes_before then "unchanged" else "changed")
    (List.length agreeing) (List.length names);;
