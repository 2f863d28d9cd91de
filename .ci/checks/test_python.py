"""The Python of the repository is laid out by black, has no lambda with a name, and says types that mypy accepts.

Black and mypy are asked where they are there. One black lays out otherwise than another, so another one than is named here isn't asked.
"""
import ast
import glob
import os
import shutil
import subprocess
import tempfile
import unittest

from built import ROOT

BLACK = "23"
COLUMNS = "120"
# Modules that several checks share; those of the package are named by its pyproject.toml.
SHARED = ("built.py", "calls.py", "form.py", "hostile_memory.py", "plain*.py", "stub.py")


def sources() -> list[str]:
    """The names of all Python sources of the repository, from its top."""
    folders = (".ci", "bench", "examples", "tools", "workflow")
    found = (glob.glob(f"{ROOT}/{folder}/**/*.py", recursive=True) for folder in folders)
    return sorted(os.path.relpath(name, ROOT) for names in found for name in names)


def named_lambdas(text: str) -> list[int]:
    """The lines on which a name is bound to a lambda."""
    assigned = (node for node in ast.walk(ast.parse(text)) if isinstance(node, (ast.Assign, ast.AnnAssign)))
    return [node.lineno for node in assigned if isinstance(node.value, ast.Lambda)]


def bound_by(node: ast.AST) -> list[ast.AST]:
    """What gets a value by a statement, or by an expression of several lines."""
    if isinstance(node, (ast.ListComp, ast.SetComp, ast.GeneratorExp, ast.DictComp)):
        return [part.target for part in node.generators] if node.lineno != node.end_lineno else []
    if isinstance(node, ast.With):
        return [item.optional_vars for item in node.items if item.optional_vars]
    if isinstance(node, (ast.For, ast.AnnAssign, ast.NamedExpr)):
        return [node.target]
    return list(node.targets) if isinstance(node, ast.Assign) else []


def vague_names(text: str) -> list[int]:
    """The lines on which `it` is the name of more than what a comprehension of one line, or a lambda, goes over."""
    nodes = list(ast.walk(ast.parse(text)))
    parts = [(node, part) for node in nodes for given in bound_by(node) for part in ast.walk(given)]
    named = {node.lineno for node, part in parts if isinstance(part, ast.Name) and part.id == "it"}
    defined = [node for node in nodes if isinstance(node, ast.FunctionDef)]
    return sorted(named | {node.lineno for node in defined if "it" in [arg.arg for arg in node.args.args]})


def major_version(program: str) -> str:
    """The first number of the version that a program tells."""
    told = subprocess.run([program, "--version"], capture_output=True, text=True, check=True).stdout
    return next((word.split(".")[0] for word in told.replace(",", " ").split() if word[:1].isdigit()), "")


class Python(unittest.TestCase):
    def test_black_changes_nothing(self) -> None:
        black = shutil.which("black")
        if black is None or major_version(black) != BLACK:
            self.skipTest(f"there is no black {BLACK} here")
        words = [black, "--quiet", "--check", "--diff", "--line-length", COLUMNS, "--config", os.devnull, *sources()]
        with tempfile.TemporaryDirectory(prefix="hull-black-") as room:
            env = {**os.environ, "BLACK_CACHE_DIR": room}
            ran = subprocess.run(words, cwd=ROOT, capture_output=True, text=True, check=False, env=env)
        self.assertEqual((ran.returncode, ran.stdout[:2000]), (0, ""), f"black -l {COLUMNS} lays this out")

    def test_no_lambda_has_a_name(self) -> None:
        names = sources()
        self.assertGreater(len(names), 100, "most sources weren't read")
        found = []
        for name in names:
            with open(f"{ROOT}/{name}", encoding="utf-8") as source:
                found += [f"{name}, line {line}" for line in named_lambdas(source.read())]
        self.assertEqual(found, [], "a function with a name has a `def`")

    def test_what_has_more_than_a_line_has_a_name(self) -> None:
        found = []
        for name in sources():
            with open(f"{ROOT}/{name}", encoding="utf-8") as source:
                found += [f"{name}, line {line}" for line in vague_names(source.read())]
        self.assertEqual(found, [], "`it` is for a comprehension of one line: a unit is `unit`, a row `row`")

    def test_vague_names_are_found(self) -> None:
        self.assertEqual(vague_names("a = [it for it in b]\nsorted(a, key=lambda it: it)\n"), [])
        text = (
            "it = 1\nfor a, it in b:\n    pass\nwith a as it:\n    pass\na = [\n    it for it in b\n]\ndef f(it): ...\n"
        )
        self.assertEqual(vague_names(text), [1, 2, 4, 6, 9])

    def test_named_lambdas_are_found(self) -> None:
        self.assertEqual(named_lambdas("a = lambda: 1\nsorted(a, key=lambda x: x)\nb: object = lambda: 2\n"), [1, 3])

    def check_types(self, folder: str, *words: str) -> None:
        """Mypy's strict rules hold, whatever is installed here, and it leaves nothing behind."""
        mypy = shutil.which("mypy")
        if mypy is None:
            self.skipTest("there is no mypy here")
        with tempfile.TemporaryDirectory(prefix="hull-mypy-") as room:
            asked = [mypy, "--strict", "--cache-dir", room, "--no-site-packages", *words]
            ran = subprocess.run(asked, cwd=f"{ROOT}/{folder}", capture_output=True, text=True, check=False)
        self.assertEqual(ran.returncode, 0, ran.stdout + ran.stderr)

    def test_types_of_the_package(self) -> None:
        self.check_types("tools", "--config-file", "pyproject.toml", "--package", "hulltools")

    def test_types_of_the_checks(self) -> None:
        folder = f"{ROOT}/.ci/checks"
        names = (name for pattern in SHARED for name in glob.glob(pattern, root_dir=folder))
        self.check_types(".ci/checks", "--config-file", os.devnull, *sorted(names))


if __name__ == "__main__":
    unittest.main()
