#!/usr/bin/env -S python3 -B
"""compare.py OPENTHEORY HOL-IMPORT [--generated N] [--changed N] [--moved N] [LOG ..]

Gives logs to `opentheory verify` and to hol-import: those made by hand in rare.py, N generated ones, N of these with one token
changed, N with a definition moved to a later place, and the files LOG with one token changed 10 times each and as they are. Both
have to print the same text where they accept, and to name the same line where they refuse. Two differences are let pass: a log that
hol-import refuses since HOL Light can't say it, and one that verify alone refuses, for a sequent that is nested too deep. Prints a
table of outcomes, and each log that is treated otherwise. Ends with 0 where there is none.
"""
import argparse
import collections
import os
import random
import re
import subprocess
import sys
import tempfile

sys.path.insert(0, os.path.dirname(os.path.abspath(__file__)))
import generate  # noqa: E402
import logs  # noqa: E402
import rare  # noqa: E402

CANNOT_SAY = b"which HOL Light can't say"
TOO_DEEP = b"nested deeper than 4128"


class Comparison:
    def __init__(self, opentheory, hol_import, folder):
        self.opentheory = opentheory
        self.hol_import = hol_import
        self.folder = folder
        self.outcomes = collections.Counter()
        self.ways = collections.Counter()
        self.bad = []

    def run(self, words):
        environment = dict(os.environ, HOL_IMPORT_COUNTS="1")
        return subprocess.run(words, capture_output=True, env=environment)

    def line(self, message):
        found = re.search(rb":(\d+): ", message)
        return int(found.group(1)) if found else None

    def note_ways(self, counts):
        words = counts.decode().split()
        for way, count in zip(words[::2], words[1::2]):
            self.ways[way] += int(count) > 0

    def outcome(self, verified, imported):
        """What came out, and whether that is as it should be."""
        accepted = verified.returncode == 0, imported.returncode == 0
        if accepted == (True, True):
            same = verified.stdout == imported.stdout
            return "both accept, " + ("the same text" if same else "OTHER TEXTS"), same
        if accepted == (False, False):
            same = self.line(verified.stderr) == self.line(imported.stderr)
            return "both refuse, " + ("the same line" if same else "OTHER LINES"), same
        if accepted == (True, False) and CANNOT_SAY in imported.stderr:
            return "refused by hol-import alone: HOL Light can't say it", True
        if accepted == (False, True) and TOO_DEEP in verified.stderr:
            return "refused by verify alone: nested too deep", True
        return ("ONLY HOL LIGHT REFUSES" if accepted[0] else "ONLY HOL LIGHT ACCEPTS"), False

    def compare(self, kind, name, text):
        path = os.path.join(self.folder, "compared.log")
        with open(path, "wb") as file:
            file.write(text)
        verified = self.run([self.opentheory, "verify", path])
        imported = self.run([self.hol_import, path])
        outcome, good = self.outcome(verified, imported)
        self.outcomes[kind, outcome] += 1
        if imported.returncode == 0:
            self.note_ways(imported.stderr)
        if not good:
            self.bad.append((kind, name, outcome, verified.stderr[-200:], imported.stderr[-200:]))
            with open(os.path.join(tempfile.gettempdir(), "hol-light-differs-%d.log" % len(self.bad)), "wb") as file:
                file.write(text)

    def report(self):
        for (kind, outcome), count in sorted(self.outcomes.items()):
            print("%6d  %s: %s" % (count, kind, outcome))
        print("rarer ways, by the number of accepted logs: "
              + ", ".join("%s %d" % (way, count) for way, count in sorted(self.ways.items()) if way != "axioms"))
        for kind, name, outcome, verified, imported in self.bad:
            print("DIFFERS: %s %s: %s\n  verify: %r\n  hol-import: %r" % (kind, name, outcome, verified, imported))
        return 1 if self.bad else 0


def changed(text, chance):
    """The text of a log with one token changed."""
    lines = text.split(b"\n")[:-1]
    if len(lines) < 3:
        return text
    at = chance.randrange(2, len(lines))
    token = lines[at]
    if token.isdigit():
        number = int(token)
        lines[at] = str(chance.choice([max(0, number - 1), number + 1, chance.randrange(number + 3), 0])).encode()
    elif token.startswith(b'"'):
        names = [line for line in lines if line.startswith(b'"')]
        lines[at] = chance.choice([b'"bool"', b'"="', b'"x"', b'"->"', b'"c"', chance.choice(names)])
    elif chance.randrange(10) == 0:
        lines = lines[:at]
    elif chance.randrange(10) == 0:
        del lines[at]
    else:
        other = {b"refl": b"assume", b"assume": b"refl", b"eqMp": b"deductAntisym", b"appThm": b"eqMp", b"free": b"con",
                 b"con": b"free", b"deductAntisym": b"appThm"}
        lines[at] = other.get(token, chance.choice(list(logs.OPERANDS)).encode())
    return b"\n".join(lines) + b"\n"


def with_definition_moved(text, chance):
    """The text of a log with one of its definitions at a later place, before the first use of its theorems; or none."""
    found = logs.records(text)
    definitions = [i for i, record in enumerate(found) if record[0] in ("constant", "constants", "typeOperator")]
    if not definitions:
        return None
    at = chance.choice(definitions)
    made = set(found[at][2])
    rest = found[:at] + found[at + 1:]
    last = next((i for i in range(at, len(rest)) if logs.used_sequents(rest[i]) & made), len(rest))
    return logs.moved(found, at, chance.randint(at, last))


def main():
    words = argparse.ArgumentParser()
    words.add_argument("opentheory")
    words.add_argument("hol_import")
    words.add_argument("--generated", type=int, default=200)
    words.add_argument("--changed", type=int, default=400)
    words.add_argument("--moved", type=int, default=200)
    words.add_argument("logs", nargs="*")
    words = words.parse_args()
    with tempfile.TemporaryDirectory() as folder:
        comparison = Comparison(words.opentheory, words.hol_import, folder)
        for name, text in rare.all_logs().items():
            comparison.compare("by hand", name, text)
        chance = random.Random(1)
        for seed in range(words.generated):
            comparison.compare("generated", "seed %d" % seed, generate.generate(seed))
        for i in range(words.changed):
            seed = chance.randrange(max(1, words.generated))
            comparison.compare("changed", "number %d, seed %d" % (i, seed), changed(generate.generate(seed), chance))
        for i in range(words.moved):
            seed = chance.randrange(max(1, words.generated))
            text = with_definition_moved(generate.generate(seed), chance)
            if text:
                comparison.compare("definition moved", "number %d, seed %d" % (i, seed), text)
        for path in words.logs:
            with open(path, "rb") as file:
                text = file.read()
            comparison.compare("log of an article or a theory", path, text)
            for i in range(10):
                comparison.compare("such a log, changed", "%s, number %d" % (path, i), changed(text, chance))
        return comparison.report()


sys.exit(main())
