(* ========================================================================= *)
(* Arrays that grow at their end, and the refusal of a log.                  *)
(* ========================================================================= *)

(* A log is refused at a line, for a reason. *)
exception Refused of int * string;;

module Table = struct

  type 'a t =
    { mutable items : 'a array;
      mutable count : int;
      filler : 'a }

  let make filler = { items = Array.make 64 filler; count = 0; filler = filler }

  let count table = table.count

  let get table i =
    if i >= table.count then invalid_arg "Table.get" else table.items.(i)

  let set table i item =
    if i >= table.count then invalid_arg "Table.set" else table.items.(i) <- item

  let add table item =
    let room = Array.length table.items in
    if table.count = room then begin
      let items = Array.make (2 * room) table.filler in
      Array.blit table.items 0 items 0 room;
      table.items <- items
    end;
    table.items.(table.count) <- item;
    table.count <- table.count + 1

end;;
