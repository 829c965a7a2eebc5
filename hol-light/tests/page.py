#!/usr/bin/env -S python3 -B
"""page.py compare|write OPENTHEORY PAGE

Runs the commands that a page shows, as lines `    $ COMMAND`, in their order at the top of the repository, and compares what they
print with the indented lines behind each; or writes what they print there. The folder out/nand is made anew. Ends with 0 where all
agree.
"""
import os
import shutil
import subprocess
import sys

PROMPT = "    $ "
INDENT = "    "


def printed(command, opentheory, top):
    command = command.replace("./opentheory", "'%s'" % opentheory)
    run = subprocess.run(["sh", "-c", command], cwd=top, stdout=subprocess.PIPE, stderr=subprocess.STDOUT)
    return [INDENT + line if line else INDENT.strip() for line in run.stdout.decode().splitlines()]


def main():
    what, opentheory, page = sys.argv[1:]
    top = os.path.dirname(os.path.dirname(os.path.dirname(os.path.abspath(__file__))))
    shutil.rmtree(os.path.join(top, "out", "nand"), ignore_errors=True)
    with open(page, encoding="utf-8") as file:
        lines = file.read().split("\n")
    written, differ, i = [], 0, 0
    while i < len(lines):
        written.append(lines[i])
        i += 1
        if not written[-1].startswith(PROMPT):
            continue
        expected = []
        while i < len(lines) and lines[i].startswith(INDENT) and not lines[i].startswith(PROMPT):
            expected.append(lines[i])
            i += 1
        command = written[-1][len(PROMPT):]
        found = [line for line in printed(command, os.path.abspath(opentheory), top) if line]
        written += found
        if what == "compare" and found != expected:
            differ += 1
            print("differs: $ %s\nprinted:\n%s\nthe page has:\n%s" % (command, "\n".join(found), "\n".join(expected)))
        elif what == "compare":
            print("agrees: $ " + command)
    if what == "write":
        with open(page, "w", encoding="utf-8") as file:
            file.write("\n".join(written))
    return 1 if differ else 0


sys.exit(main())
