(* ========================================================================= *)
(* What a recording session keeps for the exporter, loaded after             *)
(* recorder.ml: the files in their order, each with its named theorems.      *)
(* ========================================================================= *)

module Notes = struct

  type file =
    { name : string;
      inferences_after : int;
      theorems : (string * thm) list }

  let files = ref ([] : file list)       (* the latest first *)

  (* The inferences behind the names that theorems had after the last file. *)
  let named = (Hashtbl.create 5000 : (string, int) Hashtbl.t)

  (* Notes that a file is loaded. Its theorems are those that got a name     *)
  (* since the file before it.                                               *)
  let note_file name =
    let theorems = Session_values.named_theorems () in
    let is_new (name, th) = Hashtbl.find_opt named name <> Some (number_of th) in
    files :=
      { name = name;
        inferences_after = inferences ();
        theorems = List.filter is_new theorems }
      :: !files;
    List.iter (fun (name, th) -> Hashtbl.replace named name (number_of th)) theorems

  (* Loads a file of the user's, and ends the session where it fails. *)
  let load_file path =
    if Toploop.use_file Format.std_formatter path then note_file path
    else begin
      Format.print_flush ();
      prerr_endline ("hol-record: an error in " ^ path);
      exit 1
    end

  (* Writes what the exporter reads (dump.ml has its type). *)
  let write_dump path =
    let files =
      List.rev_map
        (fun file -> file.name, file.inferences_after, file.theorems) !files in
    let dump = files, List.rev (definition_theorems ()), inferences () in
    let channel = open_out_bin path in
    Marshal.to_channel channel dump [];
    close_out channel

end;;

(* From here on each file of the core is noted. *)

let loads file = loads file; Notes.note_file file;;
