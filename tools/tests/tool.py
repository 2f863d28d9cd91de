"""How the tests run the tools: within the tests' own Python, or by a Python that has what a tool needs.

The tools are those of this repository, or of the release whose folder HULL_TESTED names.
"""
import contextlib
import functools
import importlib
import io
import os
import signal
import subprocess
import sys

HERE = os.path.dirname(os.path.dirname(os.path.dirname(os.path.abspath(__file__))))
ROOT = os.environ.get("HULL_TESTED", HERE)
EXAMPLES = f"{ROOT}/examples"


def program_here() -> str:
    """The program by itself: a release's, or the one that the launcher of this repository runs."""
    if ROOT != HERE:
        return f"{ROOT}/bin/hull"
    return subprocess.run([f"{ROOT}/tools/program.sh"], stdout=subprocess.PIPE, check=True, text=True).stdout.rstrip(
        "\n"
    )


PROGRAM = program_here()
os.environ["HULL_PROGRESS"] = "0"  # (a machine that is slow says more; what is said meanwhile has tests of its own)
sys.path.insert(0, f"{ROOT}/tools")


@functools.lru_cache(None)
def python_with(module):
    """A Python of this machine that has the module, or None."""
    for python in (sys.executable, "/usr/bin/python3"):
        try:
            if subprocess.run([python, "-c", f"import {module}"], capture_output=True, timeout=60).returncode == 0:
                return python
        except OSError:
            pass
    return None


def run_here(tool, words, text):
    """Runs a tool's main as it is, without a Python of its own; signals are the tests' again behind it."""
    main = importlib.import_module(f"hulltools.commands.{tool.removesuffix('.py')}").main
    output, said = io.TextIOWrapper(io.BytesIO(), "utf-8"), io.StringIO()
    handlers = {it: signal.getsignal(it) for it in (signal.SIGINT, signal.SIGTERM, signal.SIGHUP)}
    stdin, sys.stdin = sys.stdin, io.TextIOWrapper(io.BytesIO(text.encode()), "utf-8")
    try:
        with contextlib.redirect_stdout(output), contextlib.redirect_stderr(said):
            status = main(list(words))
    except SystemExit as end:
        status = end.code
    finally:
        sys.stdin = stdin
        for number, handler in handlers.items():
            signal.signal(number, handler)
    output.flush()
    return status, output.buffer.getvalue().decode(), said.getvalue()


def run(tool, *words, python=sys.executable, flags=(), input="", **how):
    """Runs a tool to its end, and returns its status, standard output and standard error."""
    if python == sys.executable and not flags and not how:
        return run_here(tool, words, input)
    ended = subprocess.run(
        [python, "-B", *flags, f"{ROOT}/tools/{tool}", *words],
        capture_output=True,
        text=True,
        timeout=300,
        input=input,
        **how,
    )
    return ended.returncode, ended.stdout, ended.stderr
