(* ========================================================================= *)
(* The text of an article of version 6: the definitions that its exports     *)
(* need, in their order, then the exports, each behind a comment with its    *)
(* names. An object with two uses or more is stored where it is first made.  *)
(* ========================================================================= *)

module Article = struct

  type export =
    { comment : string;
      theorem : int;
      hypotheses : int;
      conclusion : int }

  type t =
    { objects : Objects.t;
      proofs : Proofs.t;
      definitions : Proofs.definition array;
      exports : export list;
      uses : int array;                 (* by object *)
      needed : bool array;              (* by object *)
      needed_definitions : bool array;
      keys : int array;                 (* by object, -1: not stored *)
      mutable next_key : int;
      mutable commands : int;
      text : Buffer.t;
      channel : out_channel }

  let definition_operands definition =
    match definition with
      Proofs.Constant (name, meaning) -> [name; meaning]
    | Proofs.Type d -> [d.operator; d.abs; d.rep; d.variables; d.premise]

  let export_operands export = [export.theorem; export.hypotheses; export.conclusion]

  (* ---- What is needed, and how often. ---- *)

  (* The definition that an object stands on, beside its operands. *)
  let definition_behind t i =
    match Objects.word t.objects i with
      Objects.Theorem_of -> Some (Objects.first t.objects i)
    | Objects.Const -> Hashtbl.find_opt t.proofs.Proofs.constants (Objects.first t.objects i)
    | Objects.Type_op -> Hashtbl.find_opt t.proofs.Proofs.operators (Objects.first t.objects i)
    | _ -> None

  let mark_needed t =
    let waiting = Stack.create () in
    let need i =
      if not t.needed.(i) then begin
        t.needed.(i) <- true;
        Stack.push i waiting
      end in
    let need_definition d =
      if not t.needed_definitions.(d) then begin
        t.needed_definitions.(d) <- true;
        List.iter need (definition_operands t.definitions.(d))
      end in
    List.iter (fun export -> List.iter need (export_operands export)) t.exports;
    while not (Stack.is_empty waiting) do
      let i = Stack.pop waiting in
      List.iter need (Objects.operands t.objects i);
      match definition_behind t i with
        Some d -> need_definition d
      | None -> ()
    done

  let count_uses t =
    let use i = t.uses.(i) <- t.uses.(i) + 1 in
    Array.iteri
      (fun i needed -> if needed then List.iter use (Objects.operands t.objects i))
      t.needed;
    Array.iteri
      (fun d needed ->
        if needed then List.iter use (definition_operands t.definitions.(d)))
      t.needed_definitions;
    List.iter (fun export -> List.iter use (export_operands export)) t.exports

  (* ---- Writing. ---- *)

  let put_line t line =
    Buffer.add_string t.text line;
    Buffer.add_char t.text '\n';
    if Buffer.length t.text > 60000 then begin
      Buffer.output_buffer t.channel t.text;
      Buffer.clear t.text
    end

  let put t command =
    t.commands <- t.commands + 1;
    put_line t command

  let put_key t key word =
    put t (string_of_int key);
    put t word

  let store t i =
    t.keys.(i) <- t.next_key;
    t.next_key <- t.next_key + 1;
    put_key t t.keys.(i) "def"

  let rec put_object t i =
    if t.keys.(i) >= 0 then put_key t t.keys.(i) "ref"
    else begin
      (match Objects.word t.objects i with
         Objects.Name -> put t (Objects.spelling t.objects i)
       | Objects.Theorem_of -> failwith "a definition stands behind its use"
       | word ->
           List.iter (put_object t) (Objects.operands t.objects i);
           put t (Objects.text word));
      if t.uses.(i) >= 2 then store t i
    end

  (* Takes a theorem of a definition from the stack, and stores it where it  *)
  (* has a use.                                                              *)
  let take_theorem t d which =
    (match Objects.find t.objects Objects.Theorem_of d which with
       Some i when t.uses.(i) > 0 -> store t i
     | _ -> ());
    put t "pop"

  let put_definition t d =
    List.iter (put_object t) (definition_operands t.definitions.(d));
    match t.definitions.(d) with
      Proofs.Constant _ ->
        put t "defineConst";
        take_theorem t d 1;
        put t "pop"
    | Proofs.Type _ ->
        put t "defineTypeOp";
        take_theorem t d 2;
        take_theorem t d 1;
        List.iter (put t) ["pop"; "pop"; "pop"]

  let put_export t export =
    put_line t ("# " ^ export.comment);
    List.iter (put_object t) (export_operands export);
    put t "thm"

  (* Writes an article, and gives it back for what it has counted. *)
  let write proofs exports channel =
    let objects = proofs.Proofs.objects in
    let count = objects.Objects.count in
    let definitions = Array.of_list (List.rev proofs.Proofs.definitions) in
    let t =
      { objects = objects;
        proofs = proofs;
        definitions = definitions;
        exports = exports;
        uses = Array.make count 0;
        needed = Array.make count false;
        needed_definitions = Array.make (Array.length definitions) false;
        keys = Array.make count (-1);
        next_key = 0;
        commands = 0;
        text = Buffer.create 65536;
        channel = channel } in
    mark_needed t;
    count_uses t;
    List.iter (put t) ["6"; "version"];
    Array.iteri (fun d needed -> if needed then put_definition t d) t.needed_definitions;
    List.iter (put_export t) exports;
    Buffer.output_buffer channel t.text;
    t

  (* The spelled names of the constants and type operators of an article. *)
  let symbols t =
    let constants = Hashtbl.create 100 and operators = Hashtbl.create 100 in
    let add table name = Hashtbl.replace table (Objects.spelling t.objects name) () in
    Array.iteri
      (fun i needed ->
        if needed then
          match Objects.word t.objects i with
            Objects.Const -> add constants (Objects.first t.objects i)
          | Objects.Type_op -> add operators (Objects.first t.objects i)
          | _ -> ())
      t.needed;
    let add_definition d needed =
      if needed then
        match t.definitions.(d) with
          Proofs.Constant (name, _) -> add constants name
        | Proofs.Type d ->
            add operators d.operator; add constants d.abs; add constants d.rep in
    Array.iteri add_definition t.needed_definitions;
    constants, operators

end;;
