(* ========================================================================= *)
(* The assumptions of a log: theorems of the session, or axioms.             *)
(* ========================================================================= *)

module Assumptions = struct

  let is_among gs h = List.exists (Derived.same_term h) gs

  let rec distinct gs =
    match gs with
      [] -> []
    | g :: rest -> if is_among rest g then distinct rest else g :: distinct rest

  (* A theorem of the session as the sequent gs |- p. *)
  let fit gs p th =
    if not (Derived.same_term (concl th) p) then
      failwith "the theorem for an assumption says something else";
    if not (List.for_all (is_among gs) (hyp th)) then
      failwith "the theorem for an assumption has more hypotheses";
    List.fold_left (fun th g -> Derived.weaken g th) th gs

  let axiom_for context gs p statement =
    match List.find_opt (fun th -> Derived.same_term (concl th) statement) (axioms ()) with
      Some th -> th
    | None ->
        if context.Context.makes_axioms then new_axiom statement
        else
          let shown tm = "`" ^ context.Context.show tm ^ "`" in
          failwith ("no theorem for the assumption "
            ^ String.concat ", " (List.map shown gs)
            ^ (if gs = [] then "|- " else " |- ") ^ shown p)

  (* An axiom has no hypotheses, so a sequent that has some is put into one  *)
  (* proposition.                                                            *)
  let sequent context hypotheses p =
    let gs = distinct hypotheses in
    List.iter (fun tm -> ignore (ASSUME tm)) (p :: gs);
    match context.Context.theorem gs p with
      Some th -> fit gs p th
    | None ->
        if gs = [] then axiom_for context gs p p
        else begin
          incr Counts.coded_assumptions;
          Derived.from_proposition gs p
            (axiom_for context gs p (Derived.as_proposition gs p))
        end

end;;
