(* ========================================================================= *)
(* A table from HOL Light's names to others, such as those of OpenTheory's   *)
(* standard library. A line is that of an interpretation in a theory file,   *)
(*     const "HOL Light's" as "the other"                                    *)
(*     type "HOL Light's" as "the other"                                     *)
(* or it is empty, or begins with #.                                         *)
(* ========================================================================= *)

module Name_table = struct

  type entry =
    { is_operator : bool;
      hol : string;                  (* HOL Light's name *)
      other : string list }          (* the components of the other name *)

  let skip_blanks text start =
    let i = ref start in
    while !i < String.length text && (text.[!i] = ' ' || text.[!i] = '\t') do incr i done;
    !i

  let after prefix text start =
    let length = String.length prefix in
    if start + length <= String.length text && String.sub text start length = prefix
    then Some (skip_blanks text (start + length))
    else None

  let read_pair text start =
    match Spelling.read_at text start with
      None -> None
    | Some (hol, behind) ->
        match after "as" text (skip_blanks text behind) with
          None -> None
        | Some start ->
            match Spelling.read_at text start with
              Some (other, behind) when skip_blanks text behind = String.length text ->
                Some (String.concat "." hol, other)
            | _ -> None

  let read_entry text =
    let entry is_operator start =
      match read_pair text start with
        Some (hol, other) -> Some { is_operator = is_operator; hol = hol; other = other }
      | None -> None in
    match after "const" text 0, after "type" text 0 with
      Some start, _ -> entry false start
    | None, Some start -> entry true start
    | None, None -> None

  (* The entries of a file; a line that is none ends the reading. *)
  let read path =
    let channel = open_in_bin path in
    let rec entries line found =
      match (try Some (input_line channel) with End_of_file -> None) with
        None -> close_in channel; List.rev found
      | Some text ->
          let text = String.trim text in
          if text = "" || text.[0] = '#' then entries (line + 1) found
          else
            match read_entry text with
              Some entry -> entries (line + 1) (entry :: found)
            | None ->
                close_in channel;
                failwith (path ^ ":" ^ string_of_int line ^ ": no line of a table of names") in
    entries 1 []

end;;
