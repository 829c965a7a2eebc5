#!/usr/bin/env -S python3 -B
"""limits.py doubled|definitions N: writes a log that takes HOL Light long where N is great.

doubled: a variable is put in for another in a term that doubles N times. definitions: N constants are defined.
"""
import os
import sys

sys.path.insert(0, os.path.dirname(os.path.abspath(__file__)))
import rare  # noqa: E402

KINDS = {"doubled": rare.shared_term, "definitions": rare.many_definitions}

sys.stdout.buffer.write(KINDS[sys.argv[1]](int(sys.argv[2])))
