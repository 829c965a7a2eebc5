(* ========================================================================= *)
(* The packages of a recording, one for each block of files, and the theory  *)
(* file that joins them.                                                     *)
(* ========================================================================= *)

module Packages = struct

  type block =
    { package : string;          (* without its version *)
      first_file : string;
      last_file : string;
      is_main : bool }           (* does the joined theory export it? *)

  (* A line of the list of blocks has these four with tabs between, the last *)
  (* of them as the word main or required.                                   *)
  let read_blocks path =
    let channel = open_in path in
    let rec read blocks =
      match (try Some (input_line channel) with End_of_file -> None) with
        None -> close_in channel; List.rev blocks
      | Some line ->
          match String.split_on_char '\t' line with
            [package; first_file; last_file; role] ->
              read ({ package = package; first_file = first_file;
                      last_file = last_file; is_main = (role = "main") } :: blocks)
          | _ -> failwith ("no line of a list of blocks: " ^ line) in
    read []

  let version = "1.0"
  let full_name block = block.package ^ "-" ^ version

  (* ---- The theorems of a block: those that got a name in one of its       *)
  (* files, and those of its definitions, by the age of their proofs. ---- *)

  type theorem =
    { names : string list;       (* none for an unnamed theorem of a definition *)
      comment : string;
      th : Dump.thm;
      same : Dump.thm list }     (* all theorems with this sequent, th among them *)

  let files_of dump block =
    let rec from files =
      match files with
        [] -> failwith ("no file " ^ block.first_file ^ " was recorded")
      | file :: rest -> if file.Dump.name = block.first_file then files else from rest in
    let rec upto files =
      match files with
        [] -> failwith ("no file " ^ block.last_file ^ " was recorded")
      | file :: rest ->
          if file.Dump.name = block.last_file then [file] else file :: upto rest in
    upto (from dump.Dump.files)

  (* The first inference of a block, and the first one behind it. *)
  let range files =
    let last = List.nth files (List.length files - 1) in
    (List.hd files).Dump.inferences_before, last.Dump.inferences_after

  (* Unites theorems with one sequent, which an article exports once. *)
  let unite theorems =
    let add kept theorem =
      let same other = Dump.same_sequent other.th theorem.th in
      match List.partition same kept with
        [], _ -> theorem :: kept
      | _ ->
          List.map
            (fun other ->
              if same other then
                { other with
                  names = other.names @ theorem.names;
                  same = other.same @ theorem.same }
              else other)
            kept in
    List.rev (List.fold_left add [] theorems)

  let number_of th = Dump.number th.Dump.proof

  let theorems_of dump block =
    let files = files_of dump block in
    let from, beyond = range files in
    let theorem names comment th =
      { names = names; comment = comment; th = th; same = [th] } in
    let named (name, th) = theorem [name] name th in
    let unnamed (what, th) = theorem [] ("the definition of " ^ what) th in
    let is_inside (_, th) = from <= number_of th && number_of th < beyond in
    let by_name (a, _) (b, _) = compare a b in
    let by_age a b = compare (number_of a.th) (number_of b.th) in
    let in_files = List.concat_map (fun file -> file.Dump.theorems) files in
    let all =
      List.map named (List.sort by_name in_files)
      @ List.map unnamed (List.filter is_inside dump.Dump.definitions) in
    unite (List.stable_sort by_age all)

  (* ---- The names of the table that an article's symbols have. ---- *)

  let spelled entry = Spelling.spell [entry.Name_table.hol]

  let entries_of table (constants, operators) =
    let occurs entry =
      Hashtbl.mem (if entry.Name_table.is_operator then operators else constants)
        (spelled entry) in
    List.filter occurs table

  let interpretation entry =
    Printf.sprintf "interpret: %s %s as %s"
      (if entry.Name_table.is_operator then "type" else "const")
      (spelled entry) (Spelling.spell entry.Name_table.other)

  (* The namespaces of some entries, each once, sorted. *)
  let namespaces entries =
    let namespace entry =
      match List.rev entry.Name_table.other with
        _ :: (_ :: _ as outer) -> [List.rev outer]
      | _ -> [] in
    List.sort_uniq compare (List.concat_map namespace entries)

  (* ---- Files. ---- *)

  let write_file path lines =
    let channel = open_out_bin path in
    List.iter (fun line -> output_string channel (line ^ "\n")) lines;
    close_out channel

  let make_folder path = if not (Sys.file_exists path) then Sys.mkdir path 0o777

  let tags name entries required =
    let show namespace = "show: " ^ Spelling.spell namespace in
    ["name: " ^ name; "version: " ^ version]
    @ List.map (fun block -> "requires: " ^ block.package) required
    @ List.map show (namespaces entries)

  let block_lines name statements =
    ["" ; name ^ " {"] @ List.map (fun statement -> "  " ^ statement) statements @ ["}"]

  (* The theory file of a package: its article, and its symbols' names. It   *)
  (* requires the package before it, which requires its own.                 *)
  let package_theory block entries required =
    let article = Printf.sprintf "article: \"%s.art\"" block.package in
    tags block.package entries required
    @ block_lines "main" (article :: List.map interpretation entries)

  (* The theory file that joins all packages: each imports those before it.  *)
  let joined_theory name blocks entries =
    let import block = "import: " ^ block.package in
    let joined earlier block =
      block_lines block.package
        (List.rev_map import earlier @ ["package: " ^ full_name block]) in
    let rec all earlier blocks =
      match blocks with
        [] -> []
      | block :: rest -> joined earlier block @ all (block :: earlier) rest in
    let exported = List.filter (fun block -> block.is_main) blocks in
    let required = List.filter (fun block -> not block.is_main) blocks in
    tags name entries required
    @ all [] blocks
    @ block_lines "main" (List.map import exported)

  (* ---- One block. ---- *)

  let export_of proofs theorem =
    let objects = proofs.Proofs.objects in
    let terms = List.map (Objects.term objects) in
    { Article.comment = theorem.comment;
      Article.theorem = Proofs.made proofs theorem.th.Dump.proof;
      Article.hypotheses = Objects.list objects (terms (Dump.hypotheses theorem.th));
      Article.conclusion = Objects.term objects (Dump.conclusion theorem.th) }

  (* A line for each export: its names, or - where it has none. *)
  let names_line theorem =
    if theorem.names = [] then "-" else String.concat " " theorem.names

  (* Writes the package of a block. exported has the theorems that earlier   *)
  (* packages export, by the numbers of their inferences, and gets those of  *)
  (* this one. Gives back the entries of the table that its symbols have.    *)
  let write_package folder dump table exported required block =
    let from, _ = range (files_of dump block) in
    let import_of proof =
      let number = Dump.number proof in
      if number < from then By_number.find_opt exported number else None in
    let proofs = Proofs.start import_of in
    let theorems = theorems_of dump block in
    Proofs.add_all proofs (List.map (fun theorem -> theorem.th) theorems);
    let exports = List.map (export_of proofs) theorems in
    let package_folder = Filename.concat folder (full_name block) in
    make_folder package_folder;
    let path ending = Filename.concat package_folder (block.package ^ ending) in
    let channel = open_out_bin (path ".art") in
    let article = Article.write proofs exports channel in
    close_out channel;
    let entries = entries_of table (Article.symbols article) in
    write_file (path ".thy") (package_theory block entries required);
    write_file (path ".names") (List.map names_line theorems);
    let note th = By_number.replace exported (number_of th) th in
    List.iter (fun theorem -> List.iter note theorem.same) theorems;
    Printf.printf "%s: %d commands, %d theorems, %d of them without a name, %d taken from earlier packages\n%!"
      (full_name block) article.Article.commands (List.length theorems)
      (List.length (List.filter (fun theorem -> theorem.names = []) theorems))
      proofs.Proofs.imported;
    entries

  (* ---- All of them. ---- *)

  let write_all folder dump table blocks =
    let packages = Filename.concat folder "packages" in
    List.iter make_folder [folder; packages];
    let named = List.concat_map (fun file -> file.Dump.theorems) dump.Dump.files in
    Printf.printf "recorded: %d inferences, %d theorems with a name\n%!"
      dump.Dump.inferences (List.length named);
    let exported = By_number.create 1000 in
    let write (before, entries) block =
      let own = write_package packages dump table exported before block in
      [block], entries @ own in
    let _, entries = List.fold_left write ([], []) blocks in
    write_file (Filename.concat packages "installed") (List.map full_name blocks);
    let name = (List.nth blocks (List.length blocks - 1)).package in
    write_file (Filename.concat folder (name ^ ".thy")) (joined_theory name blocks entries)

end;;
