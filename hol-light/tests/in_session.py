#!/usr/bin/env -S python3 -B
"""in_session.py OPENTHEORY HOL-SESSION N

Imports N generated logs into one HOL Light session, each with symbols of its own, and compares what the session's theorems say with
what `opentheory verify` prints. For this the session may make axioms. Ends with 0 where all agree: the same text, or both refuse at
the same line, or HOL Light can't say it.
"""
import collections
import os
import re
import subprocess
import sys
import tempfile

sys.path.insert(0, os.path.dirname(os.path.abspath(__file__)))
import generate  # noqa: E402

COMMANDS = """
let write path text =
  let channel = open_out_bin path in
  output_string channel text; close_out channel;;

let summary path =
  let context = { (Session.context ()) with Context.makes_axioms = true } in
  try Buffer.contents (Listing.summary (Import.from_file context path))
  with Refused (line, reason) -> "refused:" ^ string_of_int line ^ ": " ^ reason;;

for i = 0 to %d - 1 do
  let path = "%s/" ^ string_of_int i in
  write (path ^ ".out") (summary (path ^ ".log"))
done;;
"""


def outcome(verified, imported):
    if not imported.startswith("refused:"):
        return "the same text" if verified.returncode == 0 and verified.stdout.decode() == imported else "OTHER TEXTS"
    if verified.returncode == 0:
        return "HOL Light can't say it" if "which HOL Light can't say" in imported else "ONLY HOL LIGHT REFUSES"
    line = re.search(rb":(\d+): ", verified.stderr).group(1).decode()
    return "both refuse, the same line" if imported.startswith("refused:%s:" % line) else "OTHER LINES"


def main():
    opentheory, session, count = sys.argv[1], sys.argv[2], int(sys.argv[3])
    with tempfile.TemporaryDirectory() as folder:
        for i in range(count):
            with open("%s/%d.log" % (folder, i), "wb") as file:
                file.write(generate.generate(1000 + i, "s%d." % i))
        subprocess.run([session, "--upto", "theorems.ml"], input=(COMMANDS % (count, folder)).encode(), capture_output=True)
        outcomes = collections.Counter()
        for i in range(count):
            verified = subprocess.run([opentheory, "verify", "%s/%d.log" % (folder, i)], capture_output=True)
            try:
                with open("%s/%d.out" % (folder, i), encoding="utf-8") as file:
                    imported = file.read()
            except FileNotFoundError:
                imported = ""
            outcomes[outcome(verified, imported)] += 1
            if outcome(verified, imported).isupper():
                print("seed %d: %r %r" % (1000 + i, verified.stderr[-200:], imported[:200]))
    for text, number in sorted(outcomes.items()):
        print("%6d  %s" % (number, text))
    return 1 if any(text.isupper() for text in outcomes) else 0


sys.exit(main())
