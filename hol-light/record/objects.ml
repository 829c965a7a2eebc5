(* ========================================================================= *)
(* What the commands of an article make, as a graph: each object is a word   *)
(* with at most two operands that are objects, and equal ones are one.       *)
(* ========================================================================= *)

(* Tables by texts, by types, and by variables and constants.                *)

module By_text = Hashtbl.Make (struct
    type t = string
    let equal = String.equal
    let hash (text : t) = Hashtbl.hash text
  end)

module By_type = Hashtbl.Make (struct
    type t = Dump.hol_type
    let equal = Dump.same_type
    let hash (ty : t) = Hashtbl.hash ty
  end)

module By_leaf = Hashtbl.Make (struct
    type t = Dump.term
    let equal a b =
      match a, b with
        Dump.Var (x, ty), Dump.Var (y, other)
      | Dump.Const (x, ty), Dump.Const (y, other) ->
          String.equal x y && Dump.same_type ty other
      | _ -> false
    let hash (leaf : t) = Hashtbl.hash leaf
  end)

module Objects = struct

  type word =
      Name                  (* first: the number of a text *)
    | Theorem_of            (* first: the number of a definition, second: which theorem *)
    | Nil | Cons | Type_op | Op_type | Var_type | Var | Var_term | Const | Const_term
    | App_term | Abs_term | Refl | Assume | Eq_mp | Abs_thm | App_thm
    | Deduct_antisym | Beta_conv | Subst | Sym | Trans | Prove_hyp | Axiom

  let text word =
    match word with
      Name | Theorem_of -> failwith "no word of an article"
    | Nil -> "nil" | Cons -> "cons" | Type_op -> "typeOp" | Op_type -> "opType"
    | Var_type -> "varType" | Var -> "var" | Var_term -> "varTerm"
    | Const -> "const" | Const_term -> "constTerm" | App_term -> "appTerm"
    | Abs_term -> "absTerm" | Refl -> "refl" | Assume -> "assume"
    | Eq_mp -> "eqMp" | Abs_thm -> "absThm" | App_thm -> "appThm"
    | Deduct_antisym -> "deductAntisym" | Beta_conv -> "betaConv"
    | Subst -> "subst" | Sym -> "sym" | Trans -> "trans"
    | Prove_hyp -> "proveHyp" | Axiom -> "axiom"

  (* How many of first and second are objects. *)
  let operand_count word =
    match word with
      Name | Theorem_of | Nil -> 0
    | Type_op | Var_type | Var_term | Const | Refl | Assume | Beta_conv | Sym -> 1
    | Cons | Op_type | Var | Const_term | App_term | Abs_term | Eq_mp | Abs_thm
    | App_thm | Deduct_antisym | Subst | Trans | Prove_hyp | Axiom -> 2

  type t =
    { mutable words : word array;
      mutable firsts : int array;
      mutable seconds : int array;
      mutable count : int;
      mutable slots : int array;            (* a hash table of objects, -1 is free *)
      texts : int By_text.t;
      types : int By_type.t;
      leaves : int By_leaf.t;               (* variables, and terms that are constants *)
      mutable spelled : string array;       (* by the number of a text *)
      mutable last_text : int }

  let create () =
    { words = Array.make 1024 Nil;
      firsts = Array.make 1024 0;
      seconds = Array.make 1024 0;
      count = 0;
      slots = Array.make 4096 (-1);
      texts = By_text.create 1000;
      types = By_type.create 1000;
      leaves = By_leaf.create 1000;
      spelled = Array.make 1024 "";
      last_text = -1 }

  let word t i = t.words.(i)
  let first t i = t.firsts.(i)
  let second t i = t.seconds.(i)

  let operands t i =
    match operand_count t.words.(i) with
      0 -> []
    | 1 -> [t.firsts.(i)]
    | _ -> [t.firsts.(i); t.seconds.(i)]

  let doubled items filler =
    let larger = Array.make (2 * Array.length items) filler in
    Array.blit items 0 larger 0 (Array.length items);
    larger

  (* A word is no block of memory, so it is a small number. *)
  external number_of_word : word -> int = "%identity"

  let hash word first second =
    let mixed = (number_of_word word * 31 + first) * 0x9E3779B1 + second * 0x27D4EB2F165667C5 in
    let mixed = (mixed lxor (mixed lsr 29)) * 0x165667B19E3779F9 in
    (mixed lxor (mixed lsr 32)) land max_int

  (* The slot where an object stands, or where it would be put. *)
  let slot t word first second =
    let size = Array.length t.slots in
    let rec search k =
      let i = t.slots.(k) in
      if i < 0 || (t.words.(i) = word && t.firsts.(i) = first && t.seconds.(i) = second)
      then k else search ((k + 1) land (size - 1)) in
    search (hash word first second land (size - 1))

  let enlarge_slots t =
    t.slots <- Array.make (2 * Array.length t.slots) (-1);
    for i = 0 to t.count - 1 do
      t.slots.(slot t t.words.(i) t.firsts.(i) t.seconds.(i)) <- i
    done

  let enlarge t =
    t.words <- doubled t.words Nil;
    t.firsts <- doubled t.firsts 0;
    t.seconds <- doubled t.seconds 0

  let add t k word first second =
    let i = t.count in
    if i = Array.length t.words then enlarge t;
    t.words.(i) <- word;
    t.firsts.(i) <- first;
    t.seconds.(i) <- second;
    t.slots.(k) <- i;
    t.count <- i + 1;
    if 2 * t.count > Array.length t.slots then enlarge_slots t;
    i

  let find t word first second =
    let i = t.slots.(slot t word first second) in
    if i < 0 then None else Some i

  let make t word first second =
    let k = slot t word first second in
    if t.slots.(k) >= 0 then t.slots.(k) else add t k word first second

  let name t name =
    let number =
      match By_text.find_opt t.texts name with
        Some number -> number
      | None ->
          let number = t.last_text + 1 in
          if number = Array.length t.spelled then t.spelled <- doubled t.spelled "";
          t.spelled.(number) <- Spelling.spell [name];
          t.last_text <- number;
          By_text.add t.texts name number;
          number in
    make t Name number 0

  (* The spelling of an object that is a name. *)
  let spelling t i = t.spelled.(t.firsts.(i))

  let nil t = make t Nil 0 0
  let list t items = List.fold_right (make t Cons) items (nil t)

  (* ---- Types, variables and terms of HOL Light. Names are one component;  *)
  (* the type operator fun is written ->. ---- *)

  let type_operator t name_ =
    make t Type_op (name t (if name_ = "fun" then "->" else name_)) 0

  let rec hol_type t ty =
    match By_type.find_opt t.types ty with
      Some i -> i
    | None ->
        let i =
          match ty with
            Dump.Tyvar v -> make t Var_type (name t v) 0
          | Dump.Tyapp (operator, arguments) ->
              let arguments = list t (List.map (hol_type t) arguments) in
              make t Op_type (type_operator t operator) arguments in
        By_type.add t.types ty i;
        i

  let constant t n = make t Const (name t n) 0

  (* The object of a variable, or of the term that is a constant. *)
  let leaf t tm =
    match By_leaf.find_opt t.leaves tm with
      Some i -> i
    | None ->
        let i =
          match tm with
            Dump.Var (n, ty) -> make t Var (name t n) (hol_type t ty)
          | Dump.Const (n, ty) -> make t Const_term (constant t n) (hol_type t ty)
          | Dump.Comb _ | Dump.Abs _ -> failwith "no variable and no constant" in
        By_leaf.add t.leaves tm i;
        i

  let variable t v =
    match v with Dump.Var _ -> leaf t v | _ -> failwith "no variable"

  let rec term t tm =
    match tm with
      Dump.Var _ -> make t Var_term (leaf t tm) 0
    | Dump.Const _ -> leaf t tm
    | Dump.Comb (f, x) -> let f = term t f in make t App_term f (term t x)
    | Dump.Abs (v, body) -> let v = variable t v in make t Abs_term v (term t body)

end;;
