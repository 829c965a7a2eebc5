(* The files of the importer, in the order in which they are loaded. *)

loadt "spelling.ml";;
loadt "import/table.ml";;
loadt "import/names.ml";;
loadt "import/tokens.ml";;
loadt "import/log.ml";;
loadt "import/derived.ml";;
loadt "import/context.ml";;
loadt "import/known.ml";;
loadt "import/symbols.ml";;
loadt "import/terms.ml";;
loadt "import/assumptions.ml";;
loadt "import/definitions.ml";;
loadt "import/replay.ml";;
loadt "import/import.ml";;
loadt "import/listing.ml";;
