(* ========================================================================= *)
(* HOL Light's symbols for those of a log.                                   *)
(*                                                                           *)
(* A log's symbol may stand at any type, before its definition too; HOL      *)
(* Light's have to be declared, with one arity or with a generic type. So:   *)
(*                                                                           *)
(* - A constant that the log never defines is declared at the least general  *)
(*   type of all its uses.                                                   *)
(* - A constant that the log defines stands for HOL Light's defined one at   *)
(*   instances of that one's type. At other types, and before the            *)
(*   definition, it stands for a constant of type A beside it.               *)
(* - A type operator of another arity is another operator, and so is one     *)
(*   before its definition.                                                  *)
(*                                                                           *)
(* What stood for a symbol before its definition is replaced when that comes *)
(* (replay.ml).                                                              *)
(* ========================================================================= *)

module Symbols = struct

  type kind = Names.kind = Variable | Type_variable | Constant | Operator

  (* The argument j of HOL Light's operator is the log's argument places.(j). *)
  type operator =
    { operator_name : string;
      places : int array }

  type constant =
    { mutable defined : term option;   (* at its generic type *)
      mutable beside : term option;    (* of type A *)
      mutable mentioned : bool }

  type t =
    { log : Log.t;
      context : Context.t;
      owners : (kind * string, int) Hashtbl.t;      (* whose a HOL Light name is *)
      operators : (int * int, operator) Hashtbl.t;  (* by name and arity *)
      constants : (int, constant) Hashtbl.t;
      hol_types : (int, hol_type) Hashtbl.t;        (* by the number of a type *)
      mutable some_beside : bool }  (* has one constant both forms? *)

  (* ---- Names. Two names of one kind never get one HOL Light name: a name  *)
  (* that is taken gets %1, %2 and so on at its end. ---- *)

  let plain_name number = String.concat "." (Names.components number)

  let fresh taken name =
    let rec try_number k =
      let numbered = name ^ "%" ^ string_of_int k in
      if taken numbered then try_number (k + 1) else numbered in
    if taken name then try_number 1 else name

  (* Names of variables are the same in all imports of a session. *)

  let variable_names = (Hashtbl.create 1000 : (kind * int, string) Hashtbl.t)
  let variable_owners = (Hashtbl.create 1000 : (kind * string, int) Hashtbl.t)

  let variable_name kind number =
    try Hashtbl.find variable_names (kind, number) with Not_found ->
      let taken name = Hashtbl.mem variable_owners (kind, name) in
      let name = fresh taken (plain_name number) in
      Hashtbl.add variable_names (kind, number) name;
      Hashtbl.add variable_owners (kind, name) number;
      name

  let symbol_name t kind number =
    let components = Names.components number in
    match t.context.Context.symbol_name kind components with
      Some name -> name
    | None -> plain_name number

  let is_known kind name =
    if kind = Constant then Known.has_constant name else Known.has_operator name

  let own t kind name number = Hashtbl.replace t.owners (kind, name) number

  (* A name for a symbol that is made, with some ending. *)
  let new_name t kind number ending =
    let taken name = is_known kind name || Hashtbl.mem t.owners (kind, name) in
    let name = fresh taken (symbol_name t kind number ^ ending) in
    own t kind name number;
    name

  (* Takes a symbol that exists; two names of a log can't stand for it. *)
  let take t kind number name =
    if (try Hashtbl.find t.owners (kind, name) <> number with Not_found -> false) then
      failwith ("two names of the log stand for " ^ name);
    own t kind name number

  let exists t kind number =
    t.context.Context.takes_symbols && is_known kind (symbol_name t kind number)

  (* The spelling of the log's name behind a name of HOL Light's. *)
  let spelling t kind name =
    let owner =
      match kind with
        Variable | Type_variable -> Hashtbl.find_opt variable_owners (kind, name)
      | Constant | Operator -> Hashtbl.find_opt t.owners (kind, name) in
    match owner with
      Some number -> Names.spelling number
    | None -> Spelling.spell [name]

  (* ---- Type operators. ---- *)

  let same_order arity = Array.init arity (fun i -> i)

  (* The orders of arguments that imports into this session gave. *)
  let known_places = (Hashtbl.create 10 : (string, int array) Hashtbl.t)

  let add_operator t number arity operator =
    Hashtbl.replace t.operators (number, arity) operator;
    Hashtbl.replace known_places operator.operator_name operator.places

  let declare_operator t number arity ending =
    let name = new_name t Operator number ending in
    new_type (name, arity);
    { operator_name = name; places = same_order arity }

  let take_operator t number name arity =
    take t Operator number name;
    let places =
      try Hashtbl.find known_places name with Not_found -> same_order arity in
    { operator_name = name; places = places }

  let make_operator t number arity =
    let name = symbol_name t Operator number in
    if exists t Operator number && Known.arity name = Some arity then
      take_operator t number name arity
    else if Hashtbl.mem t.log.Log.defined_operators number then begin
      incr Counts.beside_definition;
      declare_operator t number arity "%any"
    end
    else declare_operator t number arity ""

  let operator t number arity =
    try Hashtbl.find t.operators (number, arity) with Not_found ->
      let operator = make_operator t number arity in
      add_operator t number arity operator;
      operator

  (* HOL Light's names of an operator of the log, of all arities. *)
  let operator_names t number =
    Hashtbl.fold
      (fun (other, _) operator names ->
        if other = number then operator.operator_name :: names else names)
      t.operators []

  (* ---- Types. ---- *)

  let rec hol_type t number =
    try Hashtbl.find t.hol_types number with Not_found ->
      let ty =
        match Table.get t.log.Log.types number with
          Log.Type_variable name -> mk_vartype (variable_name Type_variable name)
        | Log.Operator (name, arguments) ->
            let arguments = Array.of_list (List.map (hol_type t) arguments) in
            let operator = operator t name (Array.length arguments) in
            let argument place = arguments.(place) in
            mk_type (operator.operator_name,
                     List.map argument (Array.to_list operator.places)) in
      Hashtbl.add t.hol_types number ty;
      ty

  let forget_types t = Hashtbl.reset t.hol_types

  (* ---- Constants. ---- *)

  (* The least general type of which two types are instances. A pair of      *)
  (* parts that differ becomes a type variable, each pair its own. Operators *)
  (* that the log defines may have no HOL Light form yet, and count as       *)
  (* parts that differ.                                                      *)
  let generalise t =
    let variables = (Hashtbl.create 10 : (int * int, int) Hashtbl.t) in
    let variable pair =
      try Hashtbl.find variables pair with Not_found ->
        let count = Hashtbl.length variables in
        let name = Names.number [if count = 0 then "A" else "A" ^ string_of_int count] in
        let number = Log.type_number t.log 0 (Log.Type_variable name) in
        Hashtbl.add variables pair number;
        number in
    let stays name =
      not (Hashtbl.mem t.log.Log.defined_operators name) || exists t Operator name in
    let rec meet a b =
      match Table.get t.log.Log.types a, Table.get t.log.Log.types b with
        Log.Operator (f, xs), Log.Operator (g, ys)
          when f = g && List.length xs = List.length ys && stays f ->
          Log.type_number t.log 0 (Log.Operator (f, List.map2 meet xs ys))
      | _ -> variable (a, b) in
    meet

  let least_general_type t number =
    match List.sort_uniq compare (Log.found t.log.Log.constant_types number) with
      [] -> aty
    | first :: rest ->
        let general = generalise t first first in
        hol_type t (List.fold_left (fun general ty -> generalise t general ty) general rest)

  let generic_constant name = mk_const (name, [])

  let declare_constant t number ending ty =
    let name = new_name t Constant number ending in
    new_constant (name, ty);
    generic_constant name

  let first_form t number =
    let name = symbol_name t Constant number in
    if exists t Constant number then begin
      take t Constant number name;
      Some (generic_constant name)
    end
    else if Hashtbl.mem t.log.Log.defined_constants number then None
    else Some (declare_constant t number "" (least_general_type t number))

  let constant t number =
    try Hashtbl.find t.constants number with Not_found ->
      let constant =
        { defined = first_form t number; beside = None; mentioned = false } in
      Hashtbl.add t.constants number constant;
      constant

  let instance generic ty =
    match Derived.match_type (type_of generic) ty with
      Some theta -> Some (inst theta generic)
    | None -> None

  let make_beside t number constant =
    incr Counts.beside_definition;
    let beside = declare_constant t number "%any" aty in
    constant.beside <- Some beside;
    if constant.defined <> None then t.some_beside <- true;
    beside

  (* The term for a constant of the log at a type. *)
  let hol_constant t number ty =
    let constant = constant t number in
    constant.mentioned <- true;
    let found =
      match constant.defined with
        Some generic -> instance generic ty
      | None -> None in
    match found, constant.beside with
      Some term, _ -> term
    | None, Some beside -> inst [ty, aty] beside
    | None, None -> inst [ty, aty] (make_beside t number constant)

  let set_defined t number name =
    own t Constant name number;
    let constant = constant t number in
    constant.defined <- Some (generic_constant name);
    if constant.beside <> None then t.some_beside <- true

  let constant_name generic = fst (dest_const generic)

  (* HOL Light's names of a constant of the log: the defined one, and the    *)
  (* one beside it.                                                          *)
  let constant_names t number =
    let constant = constant t number in
    let name form =
      match form with Some generic -> [constant_name generic] | None -> [] in
    name constant.defined @ name constant.beside

  let beside_name t number =
    match (constant t number).beside with
      Some generic -> [constant_name generic]
    | None -> []

  (* A constant beside its definition that a substitution of types brought   *)
  (* to an instance of the defined type: the log means the defined constant, *)
  (* HOL Light has two. Such a theorem is refused.                           *)
  let check_beside t th =
    if t.some_beside then begin
      let generic_types = (Hashtbl.create 10 : (string, hol_type) Hashtbl.t) in
      let add _ constant =
        match constant.defined, constant.beside with
          Some generic, Some beside ->
            Hashtbl.replace generic_types (constant_name beside) (type_of generic)
        | _ -> () in
      Hashtbl.iter add t.constants;
      let is_at_defined_type name ty =
        match Hashtbl.find_opt generic_types name with
          Some generic -> Derived.match_type generic ty <> None
        | None -> false in
      if Derived.theorem_exists is_at_defined_type Derived.never_operator th then
        failwith "a constant comes to the type of its definition by a substitution, which HOL Light can't say"
    end

  (* ---- The start. ---- *)

  let start log context =
    let t =
      { log = log;
        context = context;
        owners = Hashtbl.create 100;
        operators = Hashtbl.create 100;
        constants = Hashtbl.create 100;
        hol_types = Hashtbl.create 1000;
        some_beside = false } in
    let primitive name number arity =
      own t Operator name number;
      Hashtbl.add t.operators (number, arity)
        { operator_name = name; places = same_order arity } in
    primitive "fun" Names.arrow 2;
    primitive "bool" Names.bool 0;
    own t Constant "=" Names.equals;
    Hashtbl.add t.constants Names.equals
      { defined = Some (generic_constant "="); beside = None; mentioned = false };
    t

end;;
