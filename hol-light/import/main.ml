(* hol-import LOG: replays a log with the bare kernel, and prints what its theorems say, as opentheory's verify does. *)

let fail status message =
  prerr_endline ("hol-import: " ^ message);
  exit status

let print_counts () =
  if Sys.getenv_opt "HOL_IMPORT_COUNTS" <> None then begin
    List.iter (fun (what, count) -> Printf.eprintf "%s %d " what count) (Counts.all ());
    Printf.eprintf "axioms %d\n" (List.length (Kernel.axioms ()))
  end

let import path =
  match Listing.summary (Import.from_file Context.bare path) with
  | text -> Buffer.output_buffer stdout text; flush stdout; print_counts ()
  | exception Refused (line, reason) -> fail 1 (Printf.sprintf "%s:%d: %s" path line reason)
  | exception Listing.Too_large -> fail 1 (path ^ ": summary larger than 67108864 bytes")
  | exception Sys_error reason -> fail 3 reason

let () =
  match Sys.argv with
  | [| _; path |] -> import path
  | _ -> prerr_endline "usage: hol-import LOG"; exit 2
