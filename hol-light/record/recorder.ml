(* ========================================================================= *)
(* Proof recording, loaded right after HOL Light's fusion.ml.                *)
(*                                                                           *)
(* The kernel stays as it is. Module Recording stands in front of it: its    *)
(* theorems are pairs of a theorem of the kernel and the proof by which it   *)
(* was made, and each of its rules calls the kernel's rule of that name.     *)
(* All that HOL Light loads from here on sees this module in the kernel's    *)
(* place, with the kernel's own signature.                                   *)
(* ========================================================================= *)

module type Recording_kernel = sig

  include Hol_kernel
    with type hol_type = Hol.hol_type
     and type term = Hol.term

  (* The inferences that a theorem rests on. *)
  type proof

  (* Deduct_antisym says whether the first conclusion is a hypothesis of the *)
  (* second theorem.                                                         *)
  type inference =
      Refl of term
    | Trans of proof * proof
    | Mk_comb of proof * proof
    | Abs_rule of term * proof
    | Beta of term
    | Assume of term
    | Eq_mp of proof * proof
    | Deduct_antisym of proof * proof * bool
    | Inst_type of (hol_type * hol_type) list * proof
    | Inst of (term * term) list * proof
    | Axiom of term
    | Definition of string * term
    | Type_definition_abs of type_definition
    | Type_definition_rep of type_definition

  and type_definition =
    { type_name : string;
      abs_name : string;
      rep_name : string;
      premise : thm }

  (* How many inferences have been made so far. *)
  val inferences : unit -> int

  (* The number of the inference that made a theorem, from 0. *)
  val number_of : thm -> int

  (* The theorems of all definitions, the latest first, each with what it    *)
  (* defines.                                                                *)
  val definition_theorems : unit -> (string * thm) list

end;;

module Recording : Recording_kernel = struct

  include (Hol : Hol_kernel
    with type hol_type = Hol.hol_type
     and type term = Hol.term
     and type thm := Hol.thm)

  (* A proof is a block of an inference, 0 and the inference's number, with  *)
  (* the tag of an object. OCaml compares and hashes objects by their second *)
  (* field alone, which is 0 here: so =, compare and hash answer for these   *)
  (* theorems what they answer for the kernel's, and never walk a proof. A   *)
  (* proof that nothing refers to any more is collected with its theorem.    *)
  (* Proofs have no sequents: those between are collected, which are larger. *)

  type proof = Obj.t

  type thm = { sequent : Hol.thm; proof : proof }

  type inference =
      Refl of term
    | Trans of proof * proof
    | Mk_comb of proof * proof
    | Abs_rule of term * proof
    | Beta of term
    | Assume of term
    | Eq_mp of proof * proof
    | Deduct_antisym of proof * proof * bool
    | Inst_type of (hol_type * hol_type) list * proof
    | Inst of (term * term) list * proof
    | Axiom of term
    | Definition of string * term
    | Type_definition_abs of type_definition
    | Type_definition_rep of type_definition

  and type_definition =
    { type_name : string;
      abs_name : string;
      rep_name : string;
      premise : thm }

  let inference_count = ref 0

  let inferences () = !inference_count

  let proved (inference : inference) sequent =
    let number = !inference_count in
    incr inference_count;
    { sequent = sequent;
      proof = Obj.with_tag Obj.object_tag (Obj.repr (inference, 0, number)) }

  let number_of th : int = Obj.obj (Obj.field th.proof 2)

  let dest_thm th = Hol.dest_thm th.sequent
  let hyp th = Hol.hyp th.sequent
  let concl th = Hol.concl th.sequent

  let REFL tm = proved (Refl tm) (Hol.REFL tm)

  let TRANS th1 th2 =
    proved (Trans (th1.proof, th2.proof)) (Hol.TRANS th1.sequent th2.sequent)

  let MK_COMB (th1, th2) =
    proved (Mk_comb (th1.proof, th2.proof))
      (Hol.MK_COMB (th1.sequent, th2.sequent))

  let ABS v th = proved (Abs_rule (v, th.proof)) (Hol.ABS v th.sequent)

  let BETA tm = proved (Beta tm) (Hol.BETA tm)

  let ASSUME tm = proved (Assume tm) (Hol.ASSUME tm)

  let EQ_MP th1 th2 =
    proved (Eq_mp (th1.proof, th2.proof)) (Hol.EQ_MP th1.sequent th2.sequent)

  let DEDUCT_ANTISYM_RULE th1 th2 =
    let is_first g = Hol.alphaorder (Hol.concl th1.sequent) g = 0 in
    let discharges = List.exists is_first (Hol.hyp th2.sequent) in
    proved (Deduct_antisym (th1.proof, th2.proof, discharges))
      (Hol.DEDUCT_ANTISYM_RULE th1.sequent th2.sequent)

  let INST_TYPE theta th =
    proved (Inst_type (theta, th.proof)) (Hol.INST_TYPE theta th.sequent)

  let INST theta th = proved (Inst (theta, th.proof)) (Hol.INST theta th.sequent)

  let the_axioms = ref ([] : thm list)
  let axioms () = !the_axioms

  let new_axiom tm =
    let th = proved (Axiom tm) (Hol.new_axiom tm) in
    the_axioms := th :: !the_axioms;
    th

  let the_definitions = ref ([] : thm list)
  let definitions () = !the_definitions

  let the_definition_theorems = ref ([] : (string * thm) list)
  let definition_theorems () = !the_definition_theorems

  let keep what th =
    the_definition_theorems := (what, th) :: !the_definition_theorems

  let new_basic_definition tm =
    let sequent = Hol.new_basic_definition tm in
    let constant, meaning = Hol.dest_eq (Hol.concl sequent) in
    let name = fst (Hol.dest_const constant) in
    let th = proved (Definition (name, meaning)) sequent in
    the_definitions := th :: !the_definitions;
    keep ("const " ^ name) th;
    th

  let new_basic_type_definition type_name (abs_name, rep_name) premise =
    let abs_sequent, rep_sequent =
      Hol.new_basic_type_definition type_name (abs_name, rep_name)
        premise.sequent in
    let definition =
      { type_name = type_name; abs_name = abs_name; rep_name = rep_name;
        premise = premise } in
    let abs_th = proved (Type_definition_abs definition) abs_sequent in
    let rep_th = proved (Type_definition_rep definition) rep_sequent in
    keep ("type " ^ type_name ^ ", abs") abs_th;
    keep ("type " ^ type_name ^ ", rep") rep_th;
    abs_th, rep_th

end;;

include Recording;;

(* fusion.ml defines this behind its kernel; all else there is of terms. *)

let equals_thm one other = (dest_thm one = dest_thm other);;

(* The exporter reads a theorem of the kernel as a block with one field, a   *)
(* pair of hypotheses and conclusion. Where it is something else it can't.   *)

let () =
  let sequent = Hol.ASSUME (mk_var ("p", bool_ty)) in
  let block = Obj.repr sequent in
  let is_pair pair =
    Obj.is_block pair && Obj.size pair = 2
    && Obj.field pair 0 == Obj.repr (Hol.hyp sequent)
    && Obj.field pair 1 == Obj.repr (Hol.concl sequent) in
  if not (Obj.size block = 1 && is_pair (Obj.field block 0)) then begin
    prerr_endline "hol-record: this HOL Light keeps its theorems otherwise than expected";
    exit 1
  end;;
