(* ========================================================================= *)
(* The constants and type operators that HOL Light has, indexed.             *)
(*                                                                           *)
(* The kernel keeps them in lists and looks them up from the front. The      *)
(* index beside a list reads what was put before its front since last time.  *)
(* ========================================================================= *)

module Known = struct

  type 'a index =
    { mutable seen : (string * 'a) list;
      entries : (string, 'a) Hashtbl.t }

  let index () = { seen = []; entries = Hashtbl.create 1000 }

  let update index list =
    let rec read rest =
      if rest != index.seen then
        match rest with
          [] -> ()
        | (name, entry) :: rest -> Hashtbl.replace index.entries name entry; read rest in
    if list != index.seen then begin
      read list;
      index.seen <- list
    end

  let constant_index = (index () : hol_type index)
  let operator_index = (index () : int index)

  let generic_type name =
    update constant_index (constants ());
    Hashtbl.find_opt constant_index.entries name

  let arity name =
    update operator_index (types ());
    Hashtbl.find_opt operator_index.entries name

  let has_constant name = generic_type name <> None
  let has_operator name = arity name <> None

end;;
