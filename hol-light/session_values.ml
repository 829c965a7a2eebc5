(* ========================================================================= *)
(* The theorems that a HOL Light session has by name.                        *)
(*                                                                           *)
(* OCaml's toplevel knows the names and types of all values. Looked up are   *)
(* those of type thm, thm * thm and thm list.                                *)
(* ========================================================================= *)

#directory "+compiler-libs";;

module Session_values = struct

  (* The names of toplevel values with the texts of their types. *)
  let typed_names () =
    let text ty = Format.asprintf "%a" Printtyp.type_scheme ty in
    Env.fold_values
      (fun name _ value names -> (name, text value.Types.val_type) :: names)
      None !Toploop.toplevel_env []

  (* What a function gives, without what it writes on standard error.        *)
  let quietly f =
    Format.pp_print_flush Format.err_formatter ();
    let write, flush = Format.pp_get_formatter_output_functions Format.err_formatter () in
    Format.pp_set_formatter_output_functions Format.err_formatter (fun _ _ _ -> ()) ignore;
    let restore () =
      Format.pp_set_formatter_output_functions Format.err_formatter write flush in
    match f () with
      answer -> restore (); answer
    | exception e -> restore (); raise e

  (* The value of a name, or none where the toplevel has only its type: that *)
  (* is so of names whose definition failed, or is under way. It complains   *)
  (* of these on standard error.                                             *)
  let value name =
    quietly (fun () -> try Some (Toploop.getvalue name) with _ -> None)

  (* The values of a type, each with its name. *)
  let values_of ty =
    let valued (name, its_type) =
      if its_type <> ty then None else
      match value name with
        Some value -> Some (name, value)
      | None -> None in
    List.filter_map valued (typed_names ())

  let named_theorems () : (string * thm) list =
    List.map (fun (name, value) -> name, Obj.obj value) (values_of "thm")

  (* All theorems: those that have a name, and the parts of named pairs and  *)
  (* lists.                                                                  *)
  let theorems () : thm list =
    let pair (_, value) = let left, right = Obj.obj value in [left; right] in
    List.map (fun (_, value) -> Obj.obj value) (values_of "thm")
    @ List.concat_map pair (values_of "thm * thm")
    @ List.concat_map (fun (_, value) -> Obj.obj value) (values_of "thm list")

end;;
