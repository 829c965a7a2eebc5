(* ========================================================================= *)
(* HOL Light's terms for those of a log.                                     *)
(*                                                                           *)
(* A log's terms are nameless. A binder here gets a stem with a number, the  *)
(* count of binders above one another in its body, so an inner binder never  *)
(* has the name of one around it; and no free variable of the log is that    *)
(* stem with digits behind it.                                               *)
(*                                                                           *)
(* A term without open binders is made once. One with open binders is made   *)
(* once for each surrounding, which is the list of the types and heights of  *)
(* the binders that it needs around it.                                      *)
(* ========================================================================= *)

module Terms = struct

  (* The innermost binder, by the log's type and its height, and those       *)
  (* around it.                                                              *)
  type surrounding =
    { id : int;
      ty : int;
      height : int;
      binder : term;
      outer : surrounding option;
      length : int }

  type t =
    { symbols : Symbols.t;
      stem : string;
      closed : term option array;                              (* by number *)
      opened : (int * int, term) Hashtbl.t;                    (* by number and surrounding *)
      surroundings : (int * int * int, surrounding) Hashtbl.t; (* by type, height, outer one *)
      cuts : (int * int, surrounding option) Hashtbl.t }       (* by surrounding and length *)

  (* A stem so that no variable of the log has it with digits behind it. *)
  let free_stem log =
    let taken = (Hashtbl.create 100 : (string, unit) Hashtbl.t) in
    let without_digits name =
      let beyond = ref (String.length name) in
      while !beyond > 0 && Tokens.is_digit name.[!beyond - 1] do decr beyond done;
      String.sub name 0 !beyond in
    let take number () =
      let name = Symbols.variable_name Names.Variable number in
      Hashtbl.replace taken (without_digits name) () in
    Hashtbl.iter take log.Log.variable_names;
    let rec longer stem = if Hashtbl.mem taken stem then longer (stem ^ "_") else stem in
    longer "x"

  let start symbols =
    let log = symbols.Symbols.log in
    { symbols = symbols;
      stem = free_stem log;
      closed = Array.make (Table.count log.Log.terms) None;
      opened = Hashtbl.create 1000;
      surroundings = Hashtbl.create 100;
      cuts = Hashtbl.create 100 }

  (* Forgets all terms, since symbols stand for others now. *)
  let forget t =
    Array.fill t.closed 0 (Array.length t.closed) None;
    Hashtbl.reset t.opened;
    Hashtbl.reset t.surroundings;
    Hashtbl.reset t.cuts

  let id_of surrounding =
    match surrounding with None -> 0 | Some inner -> inner.id

  let length_of surrounding =
    match surrounding with None -> 0 | Some inner -> inner.length

  let hol_type t number = Symbols.hol_type t.symbols number

  let under t ty height outer =
    let key = ty, height, id_of outer in
    try Hashtbl.find t.surroundings key with Not_found ->
      let inner =
        { id = Hashtbl.length t.surroundings + 1;
          ty = ty;
          height = height;
          binder = mk_var (t.stem ^ string_of_int height, hol_type t ty);
          outer = outer;
          length = 1 + length_of outer } in
      Hashtbl.add t.surroundings key inner;
      inner

  (* The innermost binders of a surrounding, as many as are needed. *)
  let rec cut t surrounding needed =
    match surrounding with
      None -> None
    | Some inner ->
        if needed = 0 then None
        else if inner.length <= needed then surrounding
        else
          let key = inner.id, needed in
          try Hashtbl.find t.cuts key with Not_found ->
            let outer = cut t inner.outer (needed - 1) in
            let shorter = Some (under t inner.ty inner.height outer) in
            Hashtbl.add t.cuts key shorter;
            shorter

  let rec binder_at surrounding k =
    match surrounding with
      None -> failwith "open term"
    | Some inner -> if k = 0 then inner.binder else binder_at inner.outer (k - 1)

  let variable t (name, ty) =
    mk_var (Symbols.variable_name Names.Variable name, hol_type t ty)

  let rec build t number surrounding =
    let entry = Table.get t.symbols.Symbols.log.Log.terms number in
    match entry.Log.node with
      Log.Bound k -> binder_at surrounding k
    | node when entry.Log.open_binders = 0 ->
        (match t.closed.(number) with
           Some term -> term
         | None ->
             let term = make t node None in
             t.closed.(number) <- Some term;
             term)
    | node ->
        let surrounding = cut t surrounding entry.Log.open_binders in
        let key = number, id_of surrounding in
        try Hashtbl.find t.opened key with Not_found ->
          let term = make t node surrounding in
          Hashtbl.add t.opened key term;
          term

  and make t node surrounding =
    match node with
      Log.Free (name, ty) -> variable t (name, ty)
    | Log.Constant (name, ty) ->
        Symbols.hol_constant t.symbols name (hol_type t ty)
    | Log.Bound k -> binder_at surrounding k
    | Log.Application (f, x) ->
        let f = build t f surrounding in
        mk_comb (f, build t x surrounding)
    | Log.Abstraction (ty, body) ->
        let height = (Table.get t.symbols.Symbols.log.Log.terms body).Log.height in
        let inner = under t ty height surrounding in
        mk_abs (inner.binder, build t body (Some inner))

  let term t number =
    let entry = Table.get t.symbols.Symbols.log.Log.terms number in
    if entry.Log.open_binders > 0 then failwith "open term"
    else build t number None

end;;
