(* ========================================================================= *)
(* Rules derived from those of the kernel alone.                             *)
(* ========================================================================= *)

module Derived = struct

  (* An instance of = itself, since mk_const searches the kernel's list of    *)
  (* constants, at whose end it stands.                                      *)
  let equals = mk_const ("=", [])
  let equation l r = mk_comb (mk_comb (inst [type_of l, aty] equals, l), r)

  let is_equation tm = can dest_eq tm

  (* From |- l = r the theorem |- r = l. *)
  let symmetric th =
    let equals_l, _ = dest_comb (concl th) in
    let equals, l = dest_comb equals_l in
    let reflexive = REFL l in
    EQ_MP (MK_COMB (MK_COMB (REFL equals, th), reflexive)) reflexive

  (* |- (\v. b) x = b with x for v *)
  let beta redex =
    let f, x = dest_comb redex in
    let v, _ = dest_abs f in
    if v = x then BETA redex else INST [x, v] (BETA (mk_comb (f, v)))

  (* |- a = c from th : |- a = (\v. b) x, where c is what that becomes *)
  let then_beta th = TRANS th (beta (snd (dest_eq (concl th))))

  (* The theorem of th without the hypothesis that lemma proves. *)
  let discharge lemma th = EQ_MP (DEDUCT_ANTISYM_RULE lemma th) lemma

  (* T is (\b. b) = (\b. b), as in HOL Light, but spelled out. *)
  let truth =
    let b = mk_var ("b", bool_ty) in
    REFL (mk_abs (b, b))

  (* From G |- p the theorem G |- p = T. *)
  let equals_truth th = DEDUCT_ANTISYM_RULE th truth

  let same_term s t = alphaorder s t = 0

  let has_hypothesis g th = List.exists (same_term g) (hyp th)

  (* From G |- p the theorem g, G |- p: p is (\z. p) x, and g gives x = x.    *)
  let weaken g th =
    if has_hypothesis g th then th else
    let assumed = ASSUME g in
    let there = if is_equation g then assumed else equals_truth assumed in
    let back_and_forth = TRANS there (symmetric there) in
    let x = fst (dest_eq (concl back_and_forth)) in
    let p = concl th in
    let z = variant [p] (mk_var ("z", type_of x)) in
    let f = mk_abs (z, p) in
    let reduced = beta (mk_comb (f, x)) in
    let moved = MK_COMB (REFL f, back_and_forth) in
    EQ_MP (TRANS (TRANS (symmetric reduced) moved) reduced) th

  (* ---- A sequent g1 .. gn |- p as one proposition, with = alone:          *)
  (*        (g1 and .. and gn) = (g1 and .. and gn and p)                    *)
  (* where t1 and .. and tm is (\f. f t1 .. tm) = (\f. f T .. T). ---- *)

  let conjunction f ts =
    let applied ts = List.fold_left (fun g t -> mk_comb (g, t)) f ts in
    equation (mk_abs (f, applied ts))
      (mk_abs (f, applied (List.map (fun _ -> concl truth) ts)))

  let selector_type ts =
    List.fold_right (fun _ ty -> mk_type ("fun", [bool_ty; ty])) ts bool_ty

  let conjunction_variable ts = variant ts (mk_var ("f", selector_type ts))

  let as_proposition gs p =
    let side ts = conjunction (conjunction_variable ts) ts in
    equation (side gs) (side (gs @ [p]))

  (* |- (\f. f t1 .. tm) s = tm, where s is \x1 .. xm. xm *)
  let select s applied =
    let first = beta applied in
    let rec arguments t later =
      if t = s then later else arguments (rator t) (rand t :: later) in
    let apply_next th t = then_beta (MK_COMB (th, REFL t)) in
    let ts = arguments (snd (dest_eq (concl first))) [] in
    TRANS first (List.fold_left apply_next (REFL s) ts)

  (* From the proposition of a sequent the theorem g1 .. gn |- p. *)
  let from_proposition gs p th =
    let f = conjunction_variable gs in
    let holds g =
      if same_term g (concl truth) then REFL g else equals_truth (ASSUME g) in
    let all_hold =
      ABS f (List.fold_left (fun th g -> MK_COMB (th, holds g)) (REFL f) gs) in
    let with_p = EQ_MP th all_hold in
    let count = List.length gs + 1 in
    let xs = List.init count (fun i -> mk_var ("x" ^ string_of_int i, bool_ty)) in
    let s = List.fold_right (fun x t -> mk_abs (x, t)) xs (List.nth xs (count - 1)) in
    let selected = MK_COMB (with_p, REFL s) in
    let l, r = dest_eq (concl selected) in
    let p_equals_truth = TRANS (symmetric (select s l)) (TRANS selected (select s r)) in
    List.fold_right weaken gs (EQ_MP (symmetric p_equals_truth) truth)

  (* ---- Looking into terms. ---- *)

  let rec type_exists test ty =
    match ty with
      Tyvar _ -> false
    | Tyapp (name, arguments) -> test name || List.exists (type_exists test) arguments

  (* Has a term a constant of such a name, or a type operator of such a name? *)
  let rec term_exists constant operator tm =
    match tm with
      Var (_, ty) -> type_exists operator ty
    | Const (name, ty) -> constant name ty || type_exists operator ty
    | Comb (f, x) ->
        term_exists constant operator f || term_exists constant operator x
    | Abs (v, body) ->
        term_exists constant operator v || term_exists constant operator body

  let theorem_exists constant operator th =
    List.exists (term_exists constant operator) (concl th :: hyp th)

  let never_constant _ _ = false
  let never_operator _ = false

  exception No_match

  (* The types for type variables that make a generic type the given one. *)
  let match_type generic ty =
    let rec go generic ty pairs =
      match generic, ty with
        Tyvar _, _ ->
          (try if rev_assoc generic pairs = ty then pairs else raise No_match
           with Failure _ -> (ty, generic) :: pairs)
      | Tyapp (s, generics), Tyapp (t, types)
          when s = t && List.length generics = List.length types ->
          List.fold_right2 go generics types pairs
      | _ -> raise No_match in
    try Some (go generic ty []) with No_match -> None

  (* ---- Sets of sequents, up to the names of binders. ---- *)

  let rec compare_lists l m =
    match l, m with
      [], [] -> 0
    | [], _ -> -1
    | _, [] -> 1
    | s :: l, t :: m ->
        let order = alphaorder s t in
        if order <> 0 then order else compare_lists l m

  let compare_sequents a b = compare_lists (concl a :: hyp a) (concl b :: hyp b)

  module Sequents = Set.Make (struct type t = thm let compare = compare_sequents end)

  (* A list with the first of equal sequents alone. *)
  let distinct ths =
    let add (seen, kept) th =
      if Sequents.mem th seen then seen, kept
      else Sequents.add th seen, th :: kept in
    List.rev (snd (List.fold_left add (Sequents.empty, []) ths))

  let rec has_twice l =
    match l with [] -> false | x :: rest -> List.mem x rest || has_twice rest

end;;
