(* export DUMP FOLDER NAMES BLOCKS: writes the packages of a recording into a folder, with the names of a table, for a list of
   blocks. *)

let () =
  match Sys.argv with
  | [| _; dump; folder; names; blocks |] ->
    (try
       let table = Name_table.read names in
       Packages.write_all folder (Dump.read dump) table (Packages.read_blocks blocks)
     with Failure reason | Sys_error reason -> prerr_endline ("hol-record: " ^ reason); exit 1)
  | _ -> prerr_endline "usage: export DUMP FOLDER NAMES BLOCKS"; exit 2
