(* ========================================================================= *)
(* Names of logs. A name is a list of components; equal names have one       *)
(* number, and a number its one spelling.                                    *)
(* ========================================================================= *)

module Names = struct

  type kind = Variable | Type_variable | Constant | Operator

  let numbers = (Hashtbl.create 1000 : (string, int) Hashtbl.t)   (* by spelling *)
  let spellings = Table.make ""
  let components_of = Table.make ([] : string list)

  let number components =
    let spelling = Spelling.spell components in
    try Hashtbl.find numbers spelling with Not_found ->
      let number = Table.count spellings in
      Table.add spellings spelling;
      Table.add components_of components;
      Hashtbl.add numbers spelling number;
      number

  let spelling number = Table.get spellings number
  let components number = Table.get components_of number

  (* The number of the name that a text spells, or none. *)
  let read text =
    try Some (Hashtbl.find numbers text) with Not_found ->
      match Spelling.read text with
        Some components -> Some (number components)
      | None -> None

  let arrow = number ["->"]
  let bool = number ["bool"]
  let equals = number ["="]

end;;
