(* Fed to a session by ../measure, in a folder with a log of 20,000 definitions: imports it. Prints IMPORT and the
   seconds. *)

let () =
  let before = Sys.time () in
  ignore (import_log "definitions-20000.log");
  Printf.printf "\nIMPORT %.1f\n%!" (Sys.time () -. before);;
