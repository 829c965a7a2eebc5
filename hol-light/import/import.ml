(* ========================================================================= *)
(* The import of a log.                                                      *)
(* ========================================================================= *)

module Import = struct

  type imported =
    { results : thm list;
      assumptions : thm list;
      definitions : Definitions.definition list;
      symbols : Symbols.t }

  (* Reads the log, then replays what was read. A fault that ended the       *)
  (* reading counts after those of the steps before it.                      *)
  let from_channel context channel =
    let log, fault = Log.read channel in
    let replay = Replay.start log context in
    Replay.run replay;
    (match fault with
       Some (line, reason) -> raise (Refused (line, reason))
     | None -> ());
    { results = Replay.results replay;
      assumptions = Replay.assumptions replay;
      definitions = Definitions.all replay.Replay.definitions;
      symbols = replay.Replay.symbols }

  let from_file context path =
    let channel = open_in_bin path in
    match (try Ok (from_channel context channel) with e -> Error e) with
      Ok imported -> close_in channel; imported
    | Error e -> close_in channel; raise e

end;;
