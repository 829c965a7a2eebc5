(* ========================================================================= *)
(* The tokens of a log, with their lines.                                    *)
(* ========================================================================= *)

module Tokens = struct

  type token = Number of int | Name of int | Word of string | End_of_log

  type source =
    { channel : in_channel;
      mutable line : int;        (* lines read so far *)
      mutable last : int }       (* the line of the latest token, 0 before it *)

  let source channel = { channel = channel; line = 0; last = 0 }

  let refuse line reason = raise (Refused (line, reason))

  let line_limit = 65535
  let log_limit = 4294967296

  let is_digit c = c >= '0' && c <= '9'
  let is_letter c = (c >= 'a' && c <= 'z') || (c >= 'A' && c <= 'Z')

  let for_all test text =
    let holds = ref true in
    String.iter (fun c -> if not (test c) then holds := false) text;
    !holds

  (* A line without one carriage return at its end and blanks at both ends. *)
  let trim line =
    let length = String.length line in
    let beyond = ref (if length > 0 && line.[length - 1] = '\r' then length - 1 else length) in
    let blank i = line.[i] = ' ' || line.[i] = '\t' in
    let first = ref 0 in
    while !first < !beyond && blank !first do incr first done;
    while !beyond > !first && blank (!beyond - 1) do decr beyond done;
    String.sub line !first (!beyond - !first)

  (* The number that digits spell. One above 2^63 - 1 is no token; one that  *)
  (* is beyond the integers of OCaml stands for the greatest of them, since  *)
  (* no table of a log is that long.                                         *)
  let read_number line text =
    let length = String.length text in
    let bad =
      not (for_all is_digit text)
      || (length > 1 && text.[0] = '0')
      || length > 19 || (length = 19 && text > "9223372036854775807") in
    if bad then refuse line "bad token"
    else if length <= 18 then int_of_string text
    else max_int

  let read_token line text =
    if is_digit text.[0] then Number (read_number line text)
    else if text.[0] = '"' then
      match Names.read text with
        Some name -> Name name
      | None -> refuse line "bad token"
    else if for_all is_letter text then Word text
    else refuse line "bad token"

  let rec next source =
    let line = try Some (input_line source.channel) with End_of_file -> None in
    match line with
      None -> End_of_log
    | Some line ->
        source.line <- source.line + 1;
        if String.length line > line_limit then
          refuse source.line "line longer than 65535 bytes";
        if pos_in source.channel > log_limit then
          refuse source.line "log longer than 4294967296 bytes";
        let text = trim line in
        if text = "" || text.[0] = '#' then next source
        else begin
          source.last <- source.line;
          read_token source.line text
        end

  (* The next token inside the header or a record, of a given kind. *)

  let needed source =
    match next source with
      End_of_log -> refuse source.last "log ends early"
    | token -> token

  let number source =
    match needed source with
      Number number -> number
    | _ -> refuse source.last "bad token"

  let name source =
    match needed source with
      Name name -> name
    | _ -> refuse source.last "bad token"

  (* A number below a count of earlier things. *)
  let below count source =
    let i = number source in
    if i >= count then refuse source.last "no such number" else i

  let repeat count read source =
    let rec go k items =
      if k = 0 then List.rev items
      else (let item = read source in go (k - 1) (item :: items)) in
    go count []

end;;
