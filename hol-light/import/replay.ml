(* ========================================================================= *)
(* The steps of a log, each by the kernel's rules.                           *)
(* ========================================================================= *)

module Replay = struct

  type t =
    { log : Log.t;
      symbols : Symbols.t;
      terms : Terms.t;
      definitions : Definitions.t;
      sequents : thm array;                       (* by number *)
      assumptions : (int, thm) Hashtbl.t }        (* by number of the sequent *)

  let start log context =
    let symbols = Symbols.start log context in
    { log = log;
      symbols = symbols;
      terms = Terms.start symbols;
      definitions = Definitions.start symbols;
      sequents = Array.make (Table.count log.Log.last_uses) Derived.truth;
      assumptions = Hashtbl.create 100 }

  (* The theorem with types put in for type variables, then terms for        *)
  (* variables; of two pairs for one variable the first counts.              *)
  let substitute t th types terms =
    let type_pair (name, ty) =
      Symbols.hol_type t.symbols ty,
      mk_vartype (Symbols.variable_name Names.Type_variable name) in
    let add pairs (variable, term) =
      let v = Terms.variable t.terms variable in
      if List.exists (fun (_, w) -> w = v) pairs then pairs
      else (Terms.term t.terms term, v) :: pairs in
    let instance =
      if types = [] then th
      else begin
        let instance = INST_TYPE (List.map type_pair types) th in
        Symbols.check_beside t.symbols instance;
        instance
      end in
    if terms = [] then instance
    else INST (List.rev (List.fold_left add [] terms)) instance

  let assumption t number conclusion hypotheses =
    let p = Terms.term t.terms conclusion in
    let gs = List.map (Terms.term t.terms) hypotheses in
    let th = Assumptions.sequent t.symbols.Symbols.context gs p in
    Hashtbl.replace t.assumptions number th;
    th

  (* The theorem of a step that makes one and defines nothing. *)
  let proved t number step =
    let term = Terms.term t.terms and sequent s = t.sequents.(s) in
    match step with
      Log.Refl e -> Some (REFL (term e))
    | Log.Assume e -> Some (ASSUME (term e))
    | Log.Eq_mp (s, r) -> Some (EQ_MP (sequent s) (sequent r))
    | Log.Abs_thm (v, s) -> Some (ABS (Terms.variable t.terms v) (sequent s))
    | Log.App_thm (s, r) -> Some (MK_COMB (sequent s, sequent r))
    | Log.Deduct_antisym (s, r) -> Some (DEDUCT_ANTISYM_RULE (sequent s) (sequent r))
    | Log.Beta_conv e -> Some (Derived.beta (term e))
    | Log.Subst (s, types, terms) -> Some (substitute t (sequent s) types terms)
    | Log.Assumption (e, es) -> Some (assumption t number e es)
    | Log.Define_constant _ | Log.Define_constants _ | Log.Define_type _
    | Log.Result _ -> None

  (* Makes again, in order, the theorems before a record in which a symbol   *)
  (* stands that has been replaced.                                          *)
  let make_again t before constants operators =
    let stands th =
      Derived.theorem_exists (fun name _ -> List.mem name constants)
        (fun name -> List.mem name operators) th in
    let remake record =
      let number = record.Log.first in
      if number < Array.length t.sequents && stands t.sequents.(number) then
        match proved t number record.Log.step with
          Some th -> incr Counts.made_again; t.sequents.(number) <- th
        | None -> () in
    Terms.forget t.terms;
    for i = 0 to before - 1 do remake (Table.get t.log.Log.records i) done

  let replace_symbols t before names operators =
    let constants = List.concat_map (Symbols.beside_name t.symbols) names in
    if constants <> [] || operators <> [] then
      make_again t before constants operators

  let define_constants t pairs premise =
    let pair (number, variable) = number, Terms.variable t.terms variable in
    Definitions.define_constants t.definitions (List.map pair pairs) t.sequents.(premise)

  let define_type t i number definition =
    let abs_theorem, rep_theorem, before =
      Definitions.define_type t.definitions definition
        t.sequents.(definition.Log.premise) in
    t.sequents.(number) <- abs_theorem;
    t.sequents.(number + 1) <- rep_theorem;
    let replaced =
      match before with
        Some operator -> [operator.Symbols.operator_name]
      | None -> [] in
    replace_symbols t i [definition.Log.abs; definition.Log.rep] replaced

  let perform t i record =
    let number = record.Log.first in
    match record.Log.step with
      Log.Define_constant (name, e) ->
        t.sequents.(number) <-
          Definitions.define_constant t.definitions name (Terms.term t.terms e);
        replace_symbols t i [name] []
    | Log.Define_constants (pairs, premise) ->
        t.sequents.(number) <- define_constants t pairs premise;
        replace_symbols t i (List.map fst pairs) []
    | Log.Define_type definition -> define_type t i number definition
    | Log.Result _ -> ()
    | step ->
        match proved t number step with
          Some th -> t.sequents.(number) <- th
        | None -> ()

  let operands step =
    match step with
      Log.Refl _ | Log.Assume _ | Log.Beta_conv _ | Log.Assumption _
    | Log.Define_constant _ -> []
    | Log.Eq_mp (s, r) | Log.App_thm (s, r) | Log.Deduct_antisym (s, r) -> [s; r]
    | Log.Abs_thm (_, s) | Log.Subst (s, _, _) | Log.Define_constants (_, s)
    | Log.Result s -> [s]
    | Log.Define_type definition -> [definition.Log.premise]

  (* Drops the theorems that no later record uses; not where theorems may    *)
  (* have to be made again.                                                  *)
  let release t i record =
    let drop s =
      if Table.get t.log.Log.last_uses s = i then t.sequents.(s) <- Derived.truth in
    if not t.log.Log.uses_before_definition then
      List.iter drop (operands record.Log.step)

  let refusing line f =
    let refuse reason = raise (Refused (line, "step does not follow (" ^ reason ^ ")")) in
    try f () with
      Failure reason -> refuse reason
    | Not_found -> refuse "not found"
    | Match_failure _ -> refuse "no match"
    | Stack_overflow -> raise (Refused (line, "the stack is too small"))

  let run t =
    for i = 0 to Table.count t.log.Log.records - 1 do
      let record = Table.get t.log.Log.records i in
      refusing record.Log.line (fun () -> perform t i record);
      release t i record
    done

  (* The theorems that some records give, in order, each once. *)
  let collect t theorem_of =
    let ths = ref [] in
    for i = Table.count t.log.Log.records - 1 downto 0 do
      match theorem_of (Table.get t.log.Log.records i) with
        Some th -> ths := th :: !ths
      | None -> ()
    done;
    Derived.distinct !ths

  let results t =
    collect t (fun record ->
      match record.Log.step with
        Log.Result s -> Some t.sequents.(s)
      | _ -> None)

  let assumptions t =
    collect t (fun record ->
      match record.Log.step with
        Log.Assumption _ -> Hashtbl.find_opt t.assumptions record.Log.first
      | _ -> None)

end;;
