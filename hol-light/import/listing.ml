(* ========================================================================= *)
(* The printed forms of theorems and definitions, as opentheory's verify     *)
(* prints them (docs/FORMAT.md), from HOL Light's own terms.                 *)
(* ========================================================================= *)

module Listing = struct

  exception Too_large

  let limit = 67108864

  let put text string =
    if Buffer.length text + String.length string > limit then raise Too_large;
    Buffer.add_string text string

  let put_list text separator put_item items =
    List.iteri
      (fun i item ->
        if i > 0 then put text separator;
        put_item text item)
      items

  (* The arguments of HOL Light's operator in the log's order. *)
  let log_arguments name arguments =
    match Hashtbl.find_opt Symbols.known_places name with
      None -> arguments
    | Some places ->
        let ordered = Array.of_list arguments in
        List.iteri (fun i argument -> ordered.(places.(i)) <- argument) arguments;
        Array.to_list ordered

  let rec put_type symbols text ty =
    match ty with
      Tyvar name ->
        put text "'";
        put text (Symbols.spelling symbols Names.Type_variable name)
    | Tyapp ("fun", [x; y]) ->
        put text "("; put_type symbols text x;
        put text " -> "; put_type symbols text y; put text ")"
    | Tyapp (name, []) -> put text (Symbols.spelling symbols Names.Operator name)
    | Tyapp (name, arguments) ->
        put text "(";
        put text (Symbols.spelling symbols Names.Operator name);
        put text " ";
        put_list text " " (put_type symbols) (log_arguments name arguments);
        put text ")"

  (* The number of abstractions between a variable and its own. *)
  let rec place v binders k =
    match binders with
      [] -> None
    | w :: rest -> if v = w then Some k else place v rest (k + 1)

  let rec put_under binders symbols text tm =
    match tm with
      Var (name, ty) ->
        (match place tm binders 0 with
           Some k -> put text "#"; put text (string_of_int k)
         | None ->
             put text (Symbols.spelling symbols Names.Variable name);
             put text ":"; put_type symbols text ty)
    | Const (name, ty) ->
        put text "@"; put text (Symbols.spelling symbols Names.Constant name);
        put text ":"; put_type symbols text ty
    | Comb (Comb (Const ("=", _), l), r) ->
        put text "("; put_under binders symbols text l;
        put text " = "; put_under binders symbols text r; put text ")"
    | Comb (f, x) ->
        put text "("; put_under binders symbols text f;
        put text " "; put_under binders symbols text x; put text ")"
    | Abs (v, body) ->
        put text "(\\"; put_type symbols text (type_of v);
        put text ". "; put_under (v :: binders) symbols text body; put text ")"

  let put_term symbols text tm = put_under [] symbols text tm

  let in_text put_item item =
    let text = Buffer.create 200 in
    put_item text item;
    Buffer.contents text

  let put_sequent symbols text th =
    let hypotheses = List.map (in_text (put_term symbols)) (hyp th) in
    put_list text ", " put (List.sort compare hypotheses);
    put text (if hypotheses = [] then "|- " else " |- ");
    put_term symbols text (concl th)

  let put_pair symbols text (number, variable) =
    put text (Names.spelling number);
    put text " for ";
    put_term symbols text variable

  let put_definition symbols text definition =
    let name number = put text (Names.spelling number) in
    let sequent = put_sequent symbols text in
    match definition with
      Definitions.Constant (number, th) ->
        put text "const "; name number; put text " : "; sequent th
    | Definitions.Constants (pairs, premise, th) ->
        put text "consts ";
        put_list text ", " (put_pair symbols) pairs;
        put text (if pairs = [] then "from " else " from ");
        sequent premise; put text " : "; sequent th
    | Definitions.Type d ->
        put text "type "; name d.Definitions.operator;
        put text " (";
        put_list text " " (fun _ number -> name number) d.Definitions.variables;
        put text ") abs "; name d.Definitions.abs;
        put text " rep "; name d.Definitions.rep;
        put text " from "; sequent d.Definitions.premise;
        put text " : "; sequent d.Definitions.abs_theorem;
        put text " ; "; sequent d.Definitions.rep_theorem

  let put_section text title lines =
    put text (title ^ ": " ^ string_of_int (List.length lines) ^ "\n");
    List.iter (fun line -> put text "  "; put text line; put text "\n") lines

  (* The summary, or Too_large where it is longer than verify's limit. *)
  let summary imported =
    let symbols = imported.Import.symbols in
    let sequents = List.map (in_text (put_sequent symbols)) in
    let text = Buffer.create 65536 in
    put_section text "assumptions"
      (List.sort compare (sequents imported.Import.assumptions));
    put_section text "definitions"
      (List.map (in_text (put_definition symbols)) imported.Import.definitions);
    put_section text "theorems" (sequents imported.Import.results);
    text

end;;
