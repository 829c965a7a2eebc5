(* ========================================================================= *)
(* Imports into a HOL Light session:                                         *)
(*                                                                           *)
(*     loadt "FOLDER/import/session.ml";;                                    *)
(*     let results = import_log "FILE.log";;                                 *)
(*                                                                           *)
(* Symbols that the session has are taken as they are where they are defined *)
(* as in the log, or a theorem of the session says that they might be. An    *)
(* assumption of the log is met by a theorem of the session. Nothing becomes *)
(* an axiom.                                                                 *)
(* ========================================================================= *)

let import_folder = Filename.dirname (Filename.dirname !Location.input_name);;

let load_path_before_import = !load_path;;

load_path := import_folder :: !load_path;;

loadt "session_values.ml";;
loadt "import/rooms.ml";;
loadt "name_table.ml";;

load_path := load_path_before_import;;

module Session = struct

  let name_table = ref ([] : Name_table.entry list)

  let symbol_name kind components =
    let is_meant entry =
      entry.Name_table.other = components
      && entry.Name_table.is_operator = (kind = Names.Operator) in
    match List.filter is_meant !name_table with
      entry :: _ -> Some entry.Name_table.hol
    | [] -> None

  (* ---- Theorems: those of the session that have a name, and supplied ones. ---- *)

  let supplied = ref ([] : thm list)

  let all_theorems () = !supplied @ Session_values.theorems ()

  (* A theorem p with no other hypotheses than gs. The set is ordered by     *)
  (* conclusions first.                                                      *)
  let find_theorem set gs p =
    let fits th = List.for_all (Assumptions.is_among gs) (hyp th) in
    let rec search set =
      match Derived.Sequents.find_first_opt
              (fun th -> alphaorder (concl th) p >= 0) set with
        Some th when Derived.same_term (concl th) p ->
          if fits th then Some th else search (Derived.Sequents.remove th set)
      | _ -> None in
    search set

  (* ---- The theorems of type definitions, recognised by their form. ---- *)

  (* abs (rep a) where a term is that. *)
  let dest_twice tm =
    match tm with
      Comb (Const (f, _), Comb (Const (g, _), (Var (_, _) as v))) -> Some (f, g, v)
    | _ -> None

  (* The operator, abs and rep of |- abs (rep a) = a. *)
  let abs_form tm =
    match tm with
      Comb (Comb (Const ("=", _), l), r) ->
        (match dest_twice l, type_of r with
           Some (abs, rep, v), Tyapp (operator, _) when v = r -> Some (operator, abs, rep)
         | _ -> None)
    | _ -> None

  (* abs and rep of |- .. = (rep (abs r) = r). *)
  let rep_form tm =
    match tm with
      Comb (Comb (Const ("=", _), _), Comb (Comb (Const ("=", _), l), r)) ->
        (match dest_twice l with
           Some (rep, abs, v) when v = r -> Some (abs, rep)
         | _ -> None)
    | _ -> None

  (* A theorem, and its parts where it is a conjunction of two. *)
  let parts th =
    match conjuncts (concl th) with
      [first; second] when is_forall first && is_forall second ->
        List.map SPEC_ALL (CONJUNCTS th)
    | _ -> [th]

  let kept_type_theorems () : thm list =
    let parts (name, value) =
      if name <> "kept_type_theorems" then []
      else
        List.concat_map (fun (abs_th, rep_th) -> [abs_th; rep_th])
          !(Obj.obj value : (thm * thm) list ref) in
    List.concat_map parts (Session_values.values_of "(thm * thm) list ref")

  let type_theorems ths =
    let abs_theorems = Hashtbl.create 50 and rep_theorems = Hashtbl.create 50 in
    let read th =
      (match abs_form (concl th) with
         Some (operator, abs, rep) -> Hashtbl.replace abs_theorems operator (abs, rep, th)
       | None -> ());
      (match rep_form (concl th) with
         Some constants -> Hashtbl.replace rep_theorems constants th
       | None -> ()) in
    List.iter read (List.concat_map parts ths @ kept_type_theorems ());
    fun operator ->
      match Hashtbl.find_opt abs_theorems operator with
        None -> None
      | Some (abs, rep, abs_th) ->
          match Hashtbl.find_opt rep_theorems (abs, rep) with
            Some rep_th -> Some (abs_th, rep_th)
          | None -> None

  (* ---- The context of an import into this session. ---- *)

  let context () =
    let ths = lazy (all_theorems ()) in
    let set = lazy (Derived.Sequents.of_list (Lazy.force ths)) in
    let types = lazy (type_theorems (Lazy.force ths)) in
    { Context.takes_symbols = true;
      Context.makes_axioms = false;
      Context.symbol_name = symbol_name;
      Context.type_theorems = (fun operator -> (Lazy.force types) operator);
      Context.theorem = (fun gs p -> find_theorem (Lazy.force set) gs p);
      Context.show = string_of_term }

  (* ---- What a refused import leaves behind. ---- *)

  let rec before_those old list =
    if list == old then [] else
    match list with
      [] -> []
    | entry :: rest -> entry :: before_those old rest

  let left_behind old_types old_constants =
    let named kind (name, _) = kind ^ " " ^ name in
    List.map (named "type") (List.rev (before_those old_types (types ())))
    @ List.map (named "const") (List.rev (before_those old_constants (constants ())))

  let import path =
    let old_types = types () and old_constants = constants () in
    try Import.from_file (context ()) path
    with Refused (line, reason) ->
      let left = left_behind old_types old_constants in
      failwith
        (path ^ ":" ^ string_of_int line ^ ": " ^ reason
         ^ (if left = [] then "; nothing is left behind"
            else "; left behind: " ^ String.concat ", " left))

end;;

(* The results of a log, in its order. *)
let import_log path = (Session.import path).Import.results;;

(* From now on names of logs stand for HOL Light's names by a table. *)
let import_names path = Session.name_table := Name_table.read path;;

(* From now on these theorems meet assumptions and definitions of logs too. *)
let import_supply ths = Session.supplied := ths @ !Session.supplied;;

(* The theorem with a conclusion. *)
let result_with conclusion ths =
  match List.filter (fun th -> aconv (concl th) conclusion) ths with
    th :: _ -> th
  | [] -> failwith "result_with: no theorem has this conclusion";;
