#!/usr/bin/env python3
"""Runs the repository's own checks over the program: the launcher, the examples, the edges, and the tools.

The program is the one that the launcher runs: that which was built here, where `.ci/run` calls this after the gate, or else that in dist. So
it takes no kit, and by itself some minutes: it proves nothing, and where no program is made of the files that are there it checks nothing,
since the first check to call ./hull would build it. The last line is 'N passed, M failed'; a check that needs what this machine hasn't is
named, and counts for neither.
"""
import os
import signal
import subprocess
import sys
import unittest

ROOT = os.path.dirname(os.path.dirname(os.path.abspath(__file__)))


def main():
    sys.dont_write_bytecode = True
    # Who starts this in the background of a script, or by nohup, has some signals ignored, and what the checks start would inherit that.
    signal.signal(signal.SIGINT, signal.default_int_handler)
    for number in (signal.SIGHUP, signal.SIGQUIT, signal.SIGTERM):
        signal.signal(number, signal.SIG_DFL)
    if subprocess.run([f"{ROOT}/tools/program.sh"], stdout=subprocess.DEVNULL, check=False).returncode:
        print("there is no program that is made of these files: .ci/run, or ./hull, builds it\n0 passed, 1 failed")
        return 1
    suite = unittest.TestSuite()
    for folder, files in ((".ci/checks", "test*.py"), (".ci/checks", "hostile_*.py"), ("tools/tests", "test*.py")):
        place = os.path.join(ROOT, folder)
        suite.addTests(unittest.TestLoader().discover(place, pattern=files, top_level_dir=place))
    done = unittest.TextTestRunner(stream=sys.stdout, verbosity=1).run(suite)
    for test, why in done.skipped:
        print(f"not run: {test.id()}: {why}")
    failed = len(done.failures) + len(done.errors) + len(done.unexpectedSuccesses)
    passed = done.testsRun - failed - len(done.skipped)
    print(f"{max(passed, 0)} passed, {failed} failed")
    return 1 if failed or passed < 1 else 0


if __name__ == "__main__":
    sys.exit(main())
