(* ========================================================================= *)
(* Put between HOL Light's lib.ml and fusion.ml where the bare kernel is     *)
(* built. fusion.ml looks up constants and type operators by lib.ml's assoc, *)
(* which compares keys of any type. This one does the same for strings, and  *)
(* compares them as strings.                                                 *)
(* ========================================================================= *)

let rec assoc (name : string) = function
    (other, entry) :: _ when String.equal name other -> entry
  | _ :: rest -> assoc name rest
  | [] -> failwith ("no entry " ^ name);;
