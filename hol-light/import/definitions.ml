(* ========================================================================= *)
(* The definitions of a log. A symbol that the session has is taken where it *)
(* is defined in the same way there; any other is defined anew.              *)
(* ========================================================================= *)

module Definitions = struct

  type definition =
      Constant of int * thm
    | Constants of (int * term) list * thm * thm      (* premise, theorem *)
    | Type of type_definition

  and type_definition =
    { operator : int;
      abs : int;
      rep : int;
      variables : int list;
      premise : thm;
      abs_theorem : thm;              (* |- (\a. abs (rep a)) = (\a. a) *)
      rep_theorem : thm }             (* |- (\r. rep (abs r) = r) = (\r. p r) *)

  type t =
    { symbols : Symbols.t;
      mutable latest_first : definition list;
      defined : (Names.kind * int, unit) Hashtbl.t }

  let start symbols =
    { symbols = symbols; latest_first = []; defined = Hashtbl.create 100 }

  let all t = List.rev t.latest_first

  let context t = t.symbols.Symbols.context

  let accept t symbols definition =
    List.iter (fun symbol -> Hashtbl.replace t.defined symbol ()) symbols;
    t.latest_first <- definition :: t.latest_first

  (* ---- May these symbols be defined, from this premise? ---- *)

  let theorems_of definition =
    match definition with
      Constant (_, th) -> [th]
    | Constants (_, premise, th) -> [premise; th]
    | Type d -> [d.premise; d.abs_theorem; d.rep_theorem]

  let is_primitive (kind, number) =
    if kind = Names.Operator then number = Names.arrow || number = Names.bool
    else number = Names.equals

  let is_mentioned t (kind, number) =
    if kind = Names.Operator then Symbols.operator_names t.symbols number <> []
    else (Symbols.constant t.symbols number).Symbols.mentioned

  let occurs_in t (kind, number) th =
    if kind = Names.Operator then
      let names = Symbols.operator_names t.symbols number in
      Derived.theorem_exists Derived.never_constant
        (fun name -> List.mem name names) th
    else
      let names = Symbols.constant_names t.symbols number in
      Derived.theorem_exists (fun name _ -> List.mem name names)
        Derived.never_operator th

  let check_symbols t symbols premise =
    let in_use symbol =
      is_mentioned t symbol
      && (occurs_in t symbol premise
          || List.exists
               (fun definition -> List.exists (occurs_in t symbol) (theorems_of definition))
               t.latest_first) in
    let check symbol =
      if is_primitive symbol then failwith "primitive symbol";
      if Hashtbl.mem t.defined symbol then failwith "symbol defined already";
      if in_use symbol then failwith "symbol in use" in
    if Derived.has_twice symbols then failwith "symbol defined twice";
    List.iter check symbols

  let check_meaning tm =
    let of_type = tyvars (type_of tm) in
    if frees tm <> [] then failwith "free variable in a definition";
    if not (List.for_all (fun v -> List.mem v of_type) (type_vars_in_term tm)) then
      failwith "type variable not in the type of the constant"

  (* ---- Constants. ---- *)

  (* The definitions of the session by the name of their constant. *)

  let session_definitions = (Hashtbl.create 500 : (string, thm) Hashtbl.t)
  let session_definitions_seen = ref ([] : thm list)

  let definitions_of name =
    let rec read rest =
      if rest != !session_definitions_seen then
        match rest with
          [] -> ()
        | th :: rest ->
            let defined = fst (dest_const (fst (dest_eq (concl th)))) in
            Hashtbl.add session_definitions defined th;
            read rest in
    let list = definitions () in
    read list;
    session_definitions_seen := list;
    Hashtbl.find_all session_definitions name

  let known_definition t generic tm =
    let name = Symbols.constant_name generic in
    let theta =
      match Derived.match_type (type_of generic) (type_of tm) with
        Some theta -> theta
      | None -> failwith ("constant " ^ name ^ " exists, with another type") in
    let wanted = Derived.equation (inst theta generic) tm in
    let says_so th = hyp th = [] && Derived.same_term (concl th) wanted in
    let instances = List.map (INST_TYPE theta) (definitions_of name) in
    match List.filter says_so instances with
      th :: _ -> th
    | [] ->
        match (context t).Context.theorem [] wanted with
          Some th when says_so th -> th
        | _ -> failwith ("constant " ^ name ^ " exists, with another definition")

  (* The theorem |- c = tm of a constant that passed the checks. *)
  let define_one t number tm =
    match (Symbols.constant t.symbols number).Symbols.defined with
      Some generic -> known_definition t generic tm
    | None ->
        let name = Symbols.new_name t.symbols Names.Constant number "" in
        let th =
          new_basic_definition (Derived.equation (mk_var (name, type_of tm)) tm) in
        Symbols.set_defined t.symbols number name;
        th

  let define_constant t number tm =
    check_meaning tm;
    check_symbols t [Names.Constant, number] (REFL tm);
    let th = define_one t number tm in
    accept t [Names.Constant, number] (Constant (number, th));
    th

  (* The term that a hypothesis of the premise makes a variable equal to. *)
  let side_of premise v =
    let is_of_v h = Derived.is_equation h && fst (dest_eq h) = v in
    match List.filter is_of_v (hyp premise) with
      [h] -> snd (dest_eq h)
    | _ -> failwith "definition list and hypotheses disagree"

  let define_constants t pairs premise =
    let numbers, variables = List.split pairs in
    if Derived.has_twice variables
       || List.length (hyp premise) <> List.length pairs then
      failwith "definition list and hypotheses disagree";
    let sides = List.map (side_of premise) variables in
    List.iter check_meaning sides;
    if not (List.for_all (fun v -> List.mem v variables) (frees (concl premise))) then
      failwith "free variable in a definition";
    let symbols = List.map (fun number -> Names.Constant, number) numbers in
    check_symbols t symbols premise;
    let definitions = List.map2 (define_one t) numbers sides in
    let constant definition = fst (dest_eq (concl definition)) in
    let instance =
      INST (List.combine (List.map constant definitions) variables) premise in
    let th =
      List.fold_left (fun th definition -> Derived.discharge definition th)
        instance definitions in
    if hyp th <> [] then failwith "a hypothesis stays";
    accept t symbols (Constants (pairs, premise, th));
    th

  (* ---- Type operators. ---- *)

  (* The two theorems of type definitions that imports made. *)
  let imported_types = (Hashtbl.create 10 : (string, thm * thm) Hashtbl.t)

  (* Where each of HOL Light's arguments stands in the log's list. *)
  let places_of variables own =
    let rec place v i list =
      match list with
        [] -> failwith "bad type variable list"
      | w :: rest -> if v = w then i else place v (i + 1) rest in
    Array.of_list (List.map (fun v -> place v 0 variables) own)

  let arguments_of abs_th = snd (dest_type (type_of (snd (dest_eq (concl abs_th)))))

  let representing rep_th =
    let fixed = snd (dest_eq (concl rep_th)) in
    snd (dest_eq fixed)

  (* HOL Light's new operator has exactly the type variables of the          *)
  (* predicate. Those that the log lists besides are put into it: p' r is    *)
  (* (\i. p r) (\x. x), where the type of x has them.                        *)
  let with_variables missing premise =
    let p, t = dest_comb (concl premise) in
    let wide = List.fold_right (fun v ty -> mk_type ("fun", [v; ty])) missing bool_ty in
    let x = mk_var ("x", wide) and r = mk_var ("r", type_of t) in
    let i = mk_var ("i", mk_type ("fun", [wide; wide])) in
    let p' = mk_abs (r, mk_comb (mk_abs (i, mk_comb (p, r)), mk_abs (x, x))) in
    EQ_MP (Derived.symmetric (Derived.then_beta (Derived.beta (mk_comb (p', t))))) premise

  (* |- p r = .. from |- p' r = .. *)
  let without_variables rep_th =
    let left = fst (dest_eq (concl rep_th)) in
    TRANS (Derived.symmetric (Derived.then_beta (Derived.beta left))) rep_th

  type made =
    { name : string;
      abs_th : thm;                   (* |- abs (rep a) = a *)
      rep_th : thm;                   (* |- p r = (rep (abs r) = r) *)
      places : int array }

  let check_new_constant t number =
    if Symbols.exists t.symbols Names.Constant number then
      failwith ("constant " ^ Symbols.symbol_name t.symbols Names.Constant number
        ^ " exists, but not the type operator that it belongs to")

  let new_type_definition t (d : Log.type_definition) variables premise =
    List.iter (check_new_constant t) [d.Log.abs; d.Log.rep];
    let p = rator (concl premise) in
    let of_p = type_vars_in_term p in
    let missing = List.filter (fun v -> not (List.mem v of_p)) variables in
    let fuller =
      if missing = [] then premise
      else begin
        incr Counts.added_type_variables;
        with_variables missing premise
      end in
    let name = Symbols.new_name t.symbols Names.Operator d.Log.operator "" in
    let abs = Symbols.new_name t.symbols Names.Constant d.Log.abs "" in
    let rep = Symbols.new_name t.symbols Names.Constant d.Log.rep "" in
    let abs_th, rep_th = new_basic_type_definition name (abs, rep) fuller in
    let rep_th = if missing = [] then rep_th else without_variables rep_th in
    let places = places_of variables (arguments_of abs_th) in
    if places <> Symbols.same_order (List.length variables) then
      incr Counts.reordered_operators;
    Hashtbl.replace imported_types name (abs_th, rep_th);
    Symbols.set_defined t.symbols d.Log.abs abs;
    Symbols.set_defined t.symbols d.Log.rep rep;
    { name = name; abs_th = abs_th; rep_th = rep_th; places = places }

  let known_theorems t name =
    match Hashtbl.find_opt imported_types name with
      Some theorems -> theorems
    | None ->
        match (context t).Context.type_theorems name with
          Some theorems -> theorems
        | None ->
            failwith ("type operator " ^ name ^ " exists, but the theorems of its definition aren't known")

  (* A session may keep |- .. = (rep (abs r) = r) with p r reduced. *)
  let unreduced p rep_th =
    let redex = mk_comb (p, representing rep_th) in
    if Derived.same_term (fst (dest_eq (concl rep_th))) redex then rep_th
    else TRANS (Derived.beta redex) rep_th

  (* The session's type variables may have other names than the log's. *)
  let known_type_definition t (d : Log.type_definition) variables premise =
    let name = Symbols.symbol_name t.symbols Names.Operator d.Log.operator in
    let p, witness = dest_comb (concl premise) in
    let abs_th, rep_th = known_theorems t name in
    let another () =
      failwith ("type operator " ^ name ^ " exists, with another definition") in
    let theta =
      match Derived.match_type (type_of (representing rep_th)) (type_of witness) with
        Some theta -> theta
      | None -> another () in
    let abs_th = INST_TYPE theta abs_th in
    let rep_th = try unreduced p (INST_TYPE theta rep_th) with Failure _ -> another () in
    let own = arguments_of abs_th in
    if List.length own <> List.length variables
       || not (List.for_all (fun v -> List.mem v own) variables) then
      failwith ("type operator " ^ name ^ " exists, with other type variables");
    { name = name; abs_th = abs_th; rep_th = rep_th;
      places = places_of variables own }

  (* What the log says of a type operator that exists, to be compared. *)
  let check_known t (d : Log.type_definition) p made =
    let a = snd (dest_eq (concl made.abs_th)) and r = representing made.rep_th in
    let fun_type x y = mk_type ("fun", [x; y]) in
    let abs = Symbols.hol_constant t.symbols d.Log.abs (fun_type (type_of r) (type_of a)) in
    let rep = Symbols.hol_constant t.symbols d.Log.rep (fun_type (type_of a) (type_of r)) in
    let says th tm = hyp th = [] && Derived.same_term (concl th) tm in
    let abs_rep = Derived.equation (mk_comb (abs, mk_comb (rep, a))) a in
    let rep_abs = Derived.equation (mk_comb (rep, mk_comb (abs, r))) r in
    if not (says made.abs_th abs_rep
            && says made.rep_th (Derived.equation (mk_comb (p, r)) rep_abs)) then
      failwith ("type operator " ^ made.name ^ " exists, with another definition")

  let check_type_premise variables premise =
    if hyp premise <> [] then failwith "theorem has hypotheses";
    let p, _ = dest_comb (concl premise) in
    if Derived.has_twice variables
       || not (List.for_all (fun v -> List.mem v variables) (type_vars_in_term p)) then
      failwith "bad type variable list";
    if frees p <> [] then failwith "free variable in a definition";
    p

  (* The operator of that name and arity before, where there was one. *)
  let replace_operator t number arity made =
    let before = Hashtbl.find_opt t.symbols.Symbols.operators (number, arity) in
    let operator = { Symbols.operator_name = made.name; Symbols.places = made.places } in
    Symbols.own t.symbols Names.Operator made.name number;
    Symbols.add_operator t.symbols number arity operator;
    match before with
      Some before when before.Symbols.operator_name = made.name ->
        if before.Symbols.places <> made.places then
          failwith "type operator used with its arguments in another order";
        None
    | _ -> before

  (* The two theorems, and HOL Light's name of the operator that stood for   *)
  (* this one before its definition, where one did.                          *)
  let define_type t (d : Log.type_definition) premise =
    let names = List.map (Symbols.variable_name Names.Type_variable) d.Log.variables in
    let variables = List.map mk_vartype names in
    let p = check_type_premise variables premise in
    let symbols =
      [ Names.Operator, d.Log.operator; Names.Constant, d.Log.abs;
        Names.Constant, d.Log.rep ] in
    check_symbols t symbols premise;
    let known = Symbols.exists t.symbols Names.Operator d.Log.operator in
    let made =
      if known then known_type_definition t d variables premise
      else new_type_definition t d variables premise in
    let before = replace_operator t d.Log.operator (List.length variables) made in
    Symbols.forget_types t.symbols;
    if known then check_known t d p made;
    let a = snd (dest_eq (concl made.abs_th)) and r = representing made.rep_th in
    let abs_theorem = ABS a made.abs_th in
    let rep_theorem = ABS r (Derived.symmetric made.rep_th) in
    accept t symbols
      (Type { operator = d.Log.operator; abs = d.Log.abs; rep = d.Log.rep;
              variables = d.Log.variables; premise = premise;
              abs_theorem = abs_theorem; rep_theorem = rep_theorem });
    abs_theorem, rep_theorem, before

end;;
