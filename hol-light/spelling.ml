(* ========================================================================= *)
(* The spelling of names in articles, theory files and logs.                 *)
(*                                                                           *)
(* A name is a list of components. It is spelled in quotes, with dots        *)
(* between the components and a backslash before each quote, backslash and   *)
(* dot inside one.                                                           *)
(* ========================================================================= *)

module Spelling = struct

  let spell components =
    let text = Buffer.create 20 in
    let put c =
      if c = '"' || c = '\\' || c = '.' then Buffer.add_char text '\\';
      Buffer.add_char text c in
    Buffer.add_char text '"';
    List.iteri
      (fun i component ->
        if i > 0 then Buffer.add_char text '.';
        String.iter put component)
      components;
    Buffer.add_char text '"';
    Buffer.contents text

  (* The components of the name that a quoted text spells and the place      *)
  (* behind its closing quote, or none where the text at a place is no name. *)
  (* A backslash takes the next byte for itself, whatever it is.             *)
  let read_at text start =
    let length = String.length text in
    let component = Buffer.create 20 in
    let rec read i before =
      if i >= length then None else
      match text.[i] with
        '"' -> Some (List.rev (Buffer.contents component :: before), i + 1)
      | '\\' ->
          if i + 1 >= length then None
          else begin Buffer.add_char component text.[i + 1]; read (i + 2) before end
      | '.' ->
          let whole = Buffer.contents component in
          Buffer.clear component;
          read (i + 1) (whole :: before)
      | c -> Buffer.add_char component c; read (i + 1) before in
    if start < length && text.[start] = '"' then read (start + 1) [] else None

  (* The components of the name that a whole text spells, or none. *)
  let read text =
    match read_at text 0 with
      Some (components, behind) when behind = String.length text -> Some components
    | _ -> None

end;;
