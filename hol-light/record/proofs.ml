(* ========================================================================= *)
(* The recorded proofs of some theorems as objects of an article.            *)
(*                                                                           *)
(* A theorem that an earlier package exports comes in by the command axiom.  *)
(* Each rule of HOL Light's is a command of articles, but for the two        *)
(* theorems of a type definition, which are derived from those of version 6. *)
(* Four patterns of HOL Light's derived rules become one command, with the   *)
(* same conclusion: SYM, PROVE_HYP, BETA_CONV, and INST after INST_TYPE.     *)
(* ========================================================================= *)

module Proofs = struct

  type definition =
      Constant of int * int                             (* name, term *)
    | Type of { operator : int; abs : int; rep : int; variables : int; premise : int }

  type t =
    { objects : Objects.t;
      import_of : Dump.proof -> Dump.thm option;        (* from an earlier package *)
      made : int By_number.t;                           (* objects by inference *)
      mutable imported : int;
      mutable definitions : definition list;            (* the latest first *)
      mutable definition_count : int;
      constants : (int, int) Hashtbl.t;                 (* definitions by name *)
      operators : (int, int) Hashtbl.t }

  let start import_of =
    { objects = Objects.create ();
      import_of = import_of;
      made = By_number.create 100000;
      imported = 0;
      definitions = [];
      definition_count = 0;
      constants = Hashtbl.create 500;
      operators = Hashtbl.create 50 }

  let make t word first second = Objects.make t.objects word first second
  let make_one t word operand = Objects.make t.objects word operand 0
  let term t tm = Objects.term t.objects tm
  let list t items = Objects.list t.objects items

  let made t proof = By_number.find t.made (Dump.number proof)

  let is_imported t proof = Option.is_some (t.import_of proof)

  (* ---- Definitions. ---- *)

  let add_definition t definition =
    let i = t.definition_count in
    t.definition_count <- i + 1;
    t.definitions <- definition :: t.definitions;
    (match definition with
       Constant (name, _) -> Hashtbl.replace t.constants name i
     | Type d ->
         Hashtbl.replace t.operators d.operator i;
         Hashtbl.replace t.constants d.abs i;
         Hashtbl.replace t.constants d.rep i);
    i

  let constant_definition t name meaning =
    let name = Objects.name t.objects name in
    let i =
      match Hashtbl.find_opt t.constants name with
        Some i -> i
      | None -> add_definition t (Constant (name, term t meaning)) in
    make t Objects.Theorem_of i 1

  (* HOL Light's new type has the type variables of the predicate, sorted. *)
  let parts_of_type (d : Dump.type_definition) =
    match Dump.conclusion d.Dump.premise with
      Dump.Comb (p, witness) ->
        p, List.sort compare (Dump.term_type_variables [] p), Dump.type_of witness
    | _ -> failwith "no application"

  let type_definition t (d : Dump.type_definition) =
    let name = Objects.name t.objects in
    let operator = name d.Dump.type_name in
    match Hashtbl.find_opt t.operators operator with
      Some i -> i
    | None ->
        let _, variables, _ = parts_of_type d in
        add_definition t
          (Type { operator = operator;
                  abs = name d.Dump.abs_name;
                  rep = name d.Dump.rep_name;
                  variables = list t (List.map name variables);
                  premise = made t d.Dump.premise.Dump.proof })

  (* From an object of |- (\v. l) = (\v. r) that of |- l = r. *)
  let without_binders t th v l r =
    let applied = make t Objects.App_thm th (make_one t Objects.Refl (term t v)) in
    let reduced body =
      make_one t Objects.Beta_conv (term t (Dump.Comb (Dump.Abs (v, body), v))) in
    let left = make_one t Objects.Sym (reduced l) in
    make t Objects.Trans (make t Objects.Trans left applied) (reduced r)

  let function_type a b = Dump.Tyapp ("fun", [a; b])

  let type_constants (d : Dump.type_definition) =
    let _, variables, old = parts_of_type d in
    let arguments = List.map (fun v -> Dump.Tyvar v) variables in
    let new_type = Dump.Tyapp (d.Dump.type_name, arguments) in
    Dump.Const (d.Dump.abs_name, function_type old new_type),
    Dump.Const (d.Dump.rep_name, function_type new_type old),
    Dump.Var ("a", new_type), Dump.Var ("r", old)

  (* |- abs (rep a) = a from |- (\a. abs (rep a)) = (\a. a) *)
  let abs_theorem t d =
    let abs, rep, a, _ = type_constants d in
    let th = make t Objects.Theorem_of (type_definition t d) 1 in
    without_binders t th a (Dump.Comb (abs, Dump.Comb (rep, a))) a

  (* |- p r = (rep (abs r) = r) from |- (\r. rep (abs r) = r) = (\r. p r) *)
  let rep_theorem t d =
    let abs, rep, _, r = type_constants d in
    let p, _, old = parts_of_type d in
    let bool = Dump.Tyapp ("bool", []) in
    let equals = Dump.Const ("=", function_type old (function_type old bool)) in
    let back = Dump.Comb (rep, Dump.Comb (abs, r)) in
    let th = make t Objects.Theorem_of (type_definition t d) 2 in
    let swapped =
      without_binders t th r (Dump.Comb (Dump.Comb (equals, back), r)) (Dump.Comb (p, r)) in
    make_one t Objects.Sym swapped

  (* ---- Inferences. ---- *)

  let axiom t hypotheses conclusion =
    let hypotheses = list t (List.map (term t) hypotheses) in
    make t Objects.Axiom hypotheses (term t conclusion)

  let type_pairs t theta =
    let pair (ty, v) =
      match v with
        Dump.Tyvar v ->
          let v = Objects.name t.objects v in
          Some (list t [v; Objects.hol_type t.objects ty])
      | Dump.Tyapp _ -> None in
    List.filter_map pair theta

  let term_pairs t theta =
    List.map
      (fun (tm, v) ->
        let v = Objects.variable t.objects v in
        list t [v; term t tm])
      theta

  let subst t types terms th =
    if types = [] && terms = [] then th
    else make t Objects.Subst (list t [list t types; list t terms]) th

  let is_refl proof =
    match Dump.inference proof with Dump.Refl _ -> true | _ -> false

  let is_refl_of_equals proof =
    match Dump.inference proof with
      Dump.Refl (Dump.Const ("=", _)) -> true
    | _ -> false

  (* Of an EQ_MP that is the last step of SYM what it turns. *)
  let turned a b =
    match Dump.inference a with
      Dump.Mk_comb (applied, same) when is_refl same && is_refl b ->
        (match Dump.inference applied with
           Dump.Mk_comb (equals, proof) when is_refl_of_equals equals -> Some proof
         | _ -> None)
    | _ -> None

  (* Of an EQ_MP that is the last step of PROVE_HYP what loses a hypothesis. *)
  let discharged a lemma =
    match Dump.inference a with
      Dump.Deduct_antisym (x, y, true) when Dump.number x = Dump.number lemma -> Some y
    | _ -> None

  let eq_mp t a b =
    match turned a b, discharged a b with
      Some proof, _ -> make_one t Objects.Sym (made t proof)
    | None, Some proof -> make t Objects.Prove_hyp (made t proof) (made t b)
    | None, None -> make t Objects.Eq_mp (made t a) (made t b)

  let inst t theta proof =
    match Dump.inference proof, theta with
      Dump.Beta (Dump.Comb ((Dump.Abs (v, _) as f), _)), [x, w] when v = w ->
        make_one t Objects.Beta_conv (term t (Dump.Comb (f, x)))
    | Dump.Inst_type (types, before), _ when not (is_imported t proof) ->
        let types = type_pairs t types in
        subst t types (term_pairs t theta) (made t before)
    | _ -> subst t [] (term_pairs t theta) (made t proof)

  let infer t proof =
    match Dump.inference proof with
      Dump.Refl tm -> make_one t Objects.Refl (term t tm)
    | Dump.Beta tm -> make_one t Objects.Beta_conv (term t tm)
    | Dump.Assume tm -> make_one t Objects.Assume (term t tm)
    | Dump.Trans (a, b) -> make t Objects.Trans (made t a) (made t b)
    | Dump.Mk_comb (a, b) -> make t Objects.App_thm (made t a) (made t b)
    | Dump.Abs_rule (v, a) ->
        make t Objects.Abs_thm (Objects.variable t.objects v) (made t a)
    | Dump.Eq_mp (a, b) -> eq_mp t a b
    | Dump.Deduct_antisym (a, b, _) ->
        make t Objects.Deduct_antisym (made t a) (made t b)
    | Dump.Inst_type (types, a) -> subst t (type_pairs t types) [] (made t a)
    | Dump.Inst (theta, a) -> inst t theta a
    | Dump.Axiom tm -> axiom t [] tm
    | Dump.Definition (name, meaning) -> constant_definition t name meaning
    | Dump.Type_definition_abs d -> abs_theorem t d
    | Dump.Type_definition_rep d -> rep_theorem t d

  let add t proof =
    let i =
      match t.import_of proof with
        Some th ->
          t.imported <- t.imported + 1;
          axiom t (Dump.hypotheses th) (Dump.conclusion th)
      | None -> infer t proof in
    By_number.replace t.made (Dump.number proof) i

  (* All proofs in some proofs, up to those of imported theorems. *)
  let reached t proofs =
    let seen = By_number.create 100000 in
    let open_ = Stack.create () in
    let visit proof =
      if not (By_number.mem seen (Dump.number proof)) then begin
        By_number.add seen (Dump.number proof) proof;
        if not (is_imported t proof) then Stack.push proof open_
      end in
    List.iter visit proofs;
    while not (Stack.is_empty open_) do
      List.iter visit (Dump.premises (Stack.pop open_))
    done;
    seen

  (* Makes the objects of some theorems, each inference behind its premises. *)
  let add_all t ths =
    let seen = reached t (List.map (fun th -> th.Dump.proof) ths) in
    let numbers = Array.make (By_number.length seen) 0 in
    let next = ref 0 in
    By_number.iter (fun number _ -> numbers.(!next) <- number; incr next) seen;
    Array.sort compare numbers;
    Array.iter (fun number -> add t (By_number.find seen number)) numbers

end;;
