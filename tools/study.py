#!/usr/bin/env python3
"""Compares five price lists of a case; `study.py --help` says how."""
import os
import signal
import sys

if signal.getsignal(signal.SIGINT) is signal.default_int_handler:
    signal.signal(signal.SIGINT, signal.SIG_DFL)  # (an interrupt while modules are loaded has no traceback)
sys.dont_write_bytecode = True  # (the folder is the repository's)
sys.path.insert(0, os.path.dirname(os.path.realpath(__file__)))  # (`python3 -I` and PYTHONSAFEPATH leave it out)

try:
    from hulltools.commands.study import main
except MemoryError:
    sys.stderr.write("study.py: no memory\n")
    sys.exit(1)

if __name__ == "__main__":
    sys.exit(main())
