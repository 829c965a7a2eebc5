(* ========================================================================= *)
(* What a recording session wrote (notes.ml), with the types of the          *)
(* recording kernel (recorder.ml), constructor by constructor in their order.*)
(* ========================================================================= *)

(* Tables by numbers that are given out one after the other. *)
module By_number = Hashtbl.Make (struct
    type t = int
    let equal (a : int) b = a = b
    let hash (a : int) = a
  end)

module Dump = struct

  type hol_type =
      Tyvar of string
    | Tyapp of string * hol_type list

  type term =
      Var of string * hol_type
    | Const of string * hol_type
    | Comb of term * term
    | Abs of term * term

  type sequent = Sequent of (term list * term)

  type proof = Obj.t

  type thm = { sequent : sequent; proof : proof }

  type inference =
      Refl of term
    | Trans of proof * proof
    | Mk_comb of proof * proof
    | Abs_rule of term * proof
    | Beta of term
    | Assume of term
    | Eq_mp of proof * proof
    | Deduct_antisym of proof * proof * bool
    | Inst_type of (hol_type * hol_type) list * proof
    | Inst of (term * term) list * proof
    | Axiom of term
    | Definition of string * term
    | Type_definition_abs of type_definition
    | Type_definition_rep of type_definition

  and type_definition =
    { type_name : string;
      abs_name : string;
      rep_name : string;
      premise : thm }

  type file =
    { name : string;
      inferences_before : int;
      inferences_after : int;
      theorems : (string * thm) list }

  type t =
    { files : file list;
      definitions : (string * thm) list;
      inferences : int }

  let inference (proof : proof) : inference = Obj.obj (Obj.field proof 0)
  let number (proof : proof) : int = Obj.obj (Obj.field proof 2)
  let hypotheses { sequent = Sequent (hypotheses, _); proof = _ } = hypotheses
  let conclusion { sequent = Sequent (_, conclusion); proof = _ } = conclusion

  let read path =
    let channel = open_in_bin path in
    let written :
        (string * int * (string * thm) list) list * (string * thm) list * int =
      Marshal.from_channel channel in
    close_in channel;
    let files, definitions, inferences = written in
    let add (before, files) (name, after, theorems) =
      after,
      { name = name; inferences_before = before; inferences_after = after;
        theorems = theorems } :: files in
    { files = List.rev (snd (List.fold_left add (0, []) files));
      definitions = definitions;
      inferences = inferences }

  (* The proofs of what an inference was made from. *)
  let premises proof =
    match inference proof with
      Refl _ | Beta _ | Assume _ | Axiom _ | Definition _ -> []
    | Trans (a, b) | Mk_comb (a, b) | Eq_mp (a, b) | Deduct_antisym (a, b, _) -> [a; b]
    | Abs_rule (_, a) | Inst_type (_, a) | Inst (_, a) -> [a]
    | Type_definition_abs d | Type_definition_rep d -> [d.premise.proof]

  let rec same_type a b =
    a == b
    || match a, b with
         Tyvar v, Tyvar w -> String.equal v w
       | Tyapp (f, xs), Tyapp (g, ys) -> String.equal f g && same_types xs ys
       | _ -> false

  and same_types xs ys =
    match xs, ys with
      [], [] -> true
    | x :: xs, y :: ys -> same_type x y && same_types xs ys
    | _ -> false

  (* Are two terms one, up to the names of binders? *)
  let same_term s t =
    let rec same_variable binders x y =
      match binders with
        [] -> x = y
      | (a, b) :: rest ->
          if x = a then y = b else if y = b then false
          else same_variable rest x y in
    let rec same binders s t =
      match s, t with
        Var _, Var _ -> same_variable binders s t
      | Const (c, u), Const (d, v) -> c = d && u = v
      | Comb (f, x), Comb (g, y) -> same binders f g && same binders x y
      | Abs ((Var (_, u) as x), a), Abs ((Var (_, v) as y), b) ->
          u = v && same ((x, y) :: binders) a b
      | _ -> false in
    s == t || same [] s t

  let same_sequent a b =
    let subset l m = List.for_all (fun s -> List.exists (same_term s) m) l in
    same_term (conclusion a) (conclusion b)
    && subset (hypotheses a) (hypotheses b) && subset (hypotheses b) (hypotheses a)

  let rec type_of tm =
    match tm with
      Var (_, ty) | Const (_, ty) -> ty
    | Abs (v, body) -> Tyapp ("fun", [type_of v; type_of body])
    | Comb (f, _) ->
        match type_of f with
          Tyapp (_, [_; ty]) -> ty
        | _ -> failwith "type_of"

  let rec type_variables found ty =
    match ty with
      Tyvar name -> if List.mem name found then found else name :: found
    | Tyapp (_, arguments) -> List.fold_left type_variables found arguments

  let rec term_type_variables found tm =
    match tm with
      Var (_, ty) | Const (_, ty) -> type_variables found ty
    | Comb (f, x) -> term_type_variables (term_type_variables found f) x
    | Abs (v, body) -> term_type_variables (term_type_variables found v) body

end;;
