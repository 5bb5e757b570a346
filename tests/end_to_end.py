#!/usr/bin/env python3
"""Runs the built program over real files and compares its status, standard output and standard error, and what it
leaves in the files. The checks of each command stand in tests/commands, and what they share in tests/shared.py.
The last line is 'N passed, M failed'.
Usage: end_to_end.py [COMMAND ..], as in `end_to_end.py record puts`; without a word all are run."""
import importlib
import os
import subprocess
import sys

sys.dont_write_bytecode = True

import shared

COMMANDS = ("trace", "record", "live", "watch", "points", "replay", "make", "load", "compiled")
COMMANDS += ("puts", "faults", "edge", "information", "pages", "hostile")


def main():
    if not os.access(shared.program, os.X_OK):
        subprocess.run([os.path.join(shared.top, "tm"), "--version"], check=True, stdout=subprocess.DEVNULL)
    for name in sys.argv[1:] or COMMANDS:
        importlib.import_module(f"commands.{name}").main()
    told = f"{shared.passed} passed, {shared.failed} failed"
    print(f"end to end: {told}" if shared.failed else told)
    sys.exit(1 if shared.failed else 0)


main()
