(* ========================================================================= *)
(* A log as data. It is read once, up to its end or to the first line that   *)
(* is no part of a log; what its steps prove is no matter here.              *)
(*                                                                           *)
(* Names, types, terms and sequents are numbers, as in the log; equal types  *)
(* have one number here.                                                     *)
(* ========================================================================= *)

module Log = struct

  type type_node =
      Type_variable of int
    | Operator of int * int list

  type term_node =
      Free of int * int             (* name, type *)
    | Constant of int * int
    | Bound of int
    | Application of int * int
    | Abstraction of int * int      (* type, body *)

  type variable = int * int         (* name, type *)

  type type_definition =
    { operator : int;
      abs : int;
      rep : int;
      variables : int list;
      premise : int }

  type step =
      Refl of int
    | Assume of int
    | Eq_mp of int * int
    | Abs_thm of variable * int
    | App_thm of int * int
    | Deduct_antisym of int * int
    | Beta_conv of int
    | Subst of int * (int * int) list * (variable * int) list
    | Assumption of int * int list
    | Define_constant of int * int
    | Define_constants of (int * variable) list * int
    | Define_type of type_definition
    | Result of int

  type record =
    { line : int;
      step : step;
      first : int }                 (* the number of the first sequent it makes *)

  (* What the term with a number is, and how deep it is; how many binders    *)
  (* have to stand around it; how many stand above one another in it.        *)
  type term_entry =
    { node : term_node;
      depth : int;
      open_binders : int;
      height : int }

  type t =
    { types : type_node Table.t;
      type_depths : int Table.t;
      type_numbers : (type_node, int) Hashtbl.t;
      type_records : int Table.t;                       (* by the log's number *)
      terms : term_entry Table.t;
      records : record Table.t;
      last_uses : int Table.t;                          (* by sequent *)
      defined_constants : (int, unit) Hashtbl.t;
      defined_operators : (int, unit) Hashtbl.t;
      constant_types : (int, int list) Hashtbl.t;       (* by name *)
      operator_arities : (int, int list) Hashtbl.t;     (* by name *)
      variable_names : (int, unit) Hashtbl.t;
      mutable uses_before_definition : bool }

  let not_used = -1
  let used_by_result = max_int

  let empty () =
    { types = Table.make (Type_variable 0);
      type_depths = Table.make 0;
      type_numbers = Hashtbl.create 1000;
      type_records = Table.make 0;
      terms = Table.make { node = Bound 0; depth = 1; open_binders = 1; height = 0 };
      records = Table.make { line = 0; step = Result 0; first = 0 };
      last_uses = Table.make not_used;
      defined_constants = Hashtbl.create 100;
      defined_operators = Hashtbl.create 100;
      constant_types = Hashtbl.create 100;
      operator_arities = Hashtbl.create 100;
      variable_names = Hashtbl.create 100;
      uses_before_definition = false }

  let depth_limit = 4128

  let check_depth line depth =
    if depth > depth_limit then Tokens.refuse line "nested deeper than 4128"

  let found table key = try Hashtbl.find table key with Not_found -> []

  (* ---- Types and terms. ---- *)

  let type_number log line node =
    try Hashtbl.find log.type_numbers node with Not_found ->
      let depth =
        match node with
          Type_variable _ -> 1
        | Operator (_, arguments) ->
            1 + List.fold_left
                  (fun most i -> max most (Table.get log.type_depths i)) 0 arguments in
      check_depth line depth;
      let number = Table.count log.types in
      Table.add log.types node;
      Table.add log.type_depths depth;
      Hashtbl.add log.type_numbers node number;
      number

  let add_type log line node =
    Table.add log.type_records (type_number log line node)

  let note_arity log name arity =
    let arities = found log.operator_arities name in
    if not (List.mem arity arities) then
      Hashtbl.replace log.operator_arities name (arity :: arities)

  let note_variable log (name, _) = Hashtbl.replace log.variable_names name ()

  let leaf node = { node = node; depth = 1; open_binders = 0; height = 0 }

  let entry_of log node =
    let entry = Table.get log.terms in
    match node with
      Free _ | Constant _ -> leaf node
    | Bound k ->
        { (leaf node) with open_binders = (if k = max_int then k else k + 1) }
    | Application (f, x) ->
        let f = entry f and x = entry x in
        { node = node;
          depth = 1 + max f.depth x.depth;
          open_binders = max f.open_binders x.open_binders;
          height = max f.height x.height }
    | Abstraction (_, body) ->
        let body = entry body in
        { node = node;
          depth = 1 + body.depth;
          open_binders = max 0 (body.open_binders - 1);
          height = 1 + body.height }

  let add_term log line node =
    let entry = entry_of log node in
    check_depth line entry.depth;
    Table.add log.terms entry

  (* ---- The operands of records. ---- *)

  let read_type log source =
    Table.get log.type_records (Tokens.below (Table.count log.type_records) source)

  let read_term log source = Tokens.below (Table.count log.terms) source

  let read_sequent log source =
    let sequent = Tokens.below (Table.count log.last_uses) source in
    let record = Table.count log.records in
    if Table.get log.last_uses sequent < record then
      Table.set log.last_uses sequent record;
    sequent

  let read_variable log source =
    let name = Tokens.name source in
    let ty = read_type log source in
    note_variable log (name, ty);
    name, ty

  let read_list read source =
    let count = Tokens.number source in
    Tokens.repeat count read source

  let read_two read source =
    let first = read source in
    let second = read source in
    first, second

  (* ---- Records. ---- *)

  let add_record log line step sequents =
    Table.add log.records
      { line = line; step = step; first = Table.count log.last_uses };
    for k = 1 to sequents do Table.add log.last_uses not_used done

  (* Notes that a symbol is defined, and whether the log used it before. *)
  let note_definition log defined used name =
    if Hashtbl.mem used name then log.uses_before_definition <- true;
    Hashtbl.replace defined name ()

  let note_constant log = note_definition log log.defined_constants log.constant_types
  let note_operator log = note_definition log log.defined_operators log.operator_arities

  let read_operator log line source =
    let name = Tokens.name source in
    let arguments = read_list (read_type log) source in
    note_arity log name (List.length arguments);
    add_type log line (Operator (name, arguments))

  let read_constant log line source =
    let name = Tokens.name source in
    let ty = read_type log source in
    Hashtbl.replace log.constant_types name (ty :: found log.constant_types name);
    add_term log line (Constant (name, ty))

  let read_subst log line source =
    let type_pair source =
      let name = Tokens.name source in
      let ty = read_type log source in
      name, ty in
    let term_pair source =
      let variable = read_variable log source in
      let term = read_term log source in
      variable, term in
    let sequent = read_sequent log source in
    let types = read_list type_pair source in
    let terms = read_list term_pair source in
    add_record log line (Subst (sequent, types, terms)) 1

  let read_constant_definition log line source =
    let name = Tokens.name source in
    let term = read_term log source in
    note_constant log name;
    add_record log line (Define_constant (name, term)) 1

  let read_constants_definition log line source =
    let pair source =
      let name = Tokens.name source in
      let variable = read_variable log source in
      name, variable in
    let pairs = read_list pair source in
    let sequent = read_sequent log source in
    List.iter (fun (name, _) -> note_constant log name) pairs;
    add_record log line (Define_constants (pairs, sequent)) 1

  let read_type_definition log line source =
    let operator = Tokens.name source in
    let abs = Tokens.name source in
    let rep = Tokens.name source in
    let variables = read_list Tokens.name source in
    let premise = read_sequent log source in
    note_operator log operator;
    note_constant log abs;
    note_constant log rep;
    let definition =
      { operator = operator; abs = abs; rep = rep; variables = variables;
        premise = premise } in
    add_record log line (Define_type definition) 2

  let read_abs_thm log line source =
    let variable = read_variable log source in
    let sequent = read_sequent log source in
    add_record log line (Abs_thm (variable, sequent)) 1

  let read_assumption log line source =
    let conclusion = read_term log source in
    let hypotheses = read_list (read_term log) source in
    add_record log line (Assumption (conclusion, hypotheses)) 1

  let read_result log line source =
    let sequent = read_sequent log source in
    Table.set log.last_uses sequent used_by_result;
    add_record log line (Result sequent) 0

  let read_record log source word =
    let line = source.Tokens.last in
    let rule step = add_record log line step 1 in
    let two () = read_two (read_sequent log) source in
    match word with
      "tyvar" -> add_type log line (Type_variable (Tokens.name source))
    | "tyop" -> read_operator log line source
    | "free" ->
        let name, ty = read_variable log source in
        add_term log line (Free (name, ty))
    | "con" -> read_constant log line source
    | "bound" -> add_term log line (Bound (Tokens.number source))
    | "app" ->
        let f, x = read_two (read_term log) source in
        add_term log line (Application (f, x))
    | "lam" ->
        let ty = read_type log source in
        let body = read_term log source in
        add_term log line (Abstraction (ty, body))
    | "refl" -> rule (Refl (read_term log source))
    | "assume" -> rule (Assume (read_term log source))
    | "eqMp" -> let a, b = two () in rule (Eq_mp (a, b))
    | "absThm" -> read_abs_thm log line source
    | "appThm" -> let a, b = two () in rule (App_thm (a, b))
    | "deductAntisym" -> let a, b = two () in rule (Deduct_antisym (a, b))
    | "betaConv" -> rule (Beta_conv (read_term log source))
    | "subst" -> read_subst log line source
    | "assumption" -> read_assumption log line source
    | "constant" -> read_constant_definition log line source
    | "constants" -> read_constants_definition log line source
    | "typeOperator" -> read_type_definition log line source
    | "result" -> read_result log line source
    | _ -> Tokens.refuse line "unknown record"

  let read_header source =
    let refuse () = Tokens.refuse source.Tokens.last "bad log header" in
    (match Tokens.needed source with Tokens.Word "otlog" -> () | _ -> refuse ());
    (match Tokens.needed source with Tokens.Number 1 -> () | _ -> refuse ())

  let rec read_records log source =
    match Tokens.next source with
      Tokens.End_of_log -> ()
    | Tokens.Word word -> read_record log source word; read_records log source
    | _ -> Tokens.refuse source.Tokens.last "bad token"

  (* The records up to the end, or up to a fault, with that fault. *)
  let read channel =
    let log = empty () in
    let source = Tokens.source channel in
    try
      read_header source;
      read_records log source;
      log, None
    with Refused (line, reason) -> log, Some (line, reason)

end;;
