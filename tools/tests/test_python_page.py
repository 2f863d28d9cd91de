"""The tables of docs/PYTHON.md are what the code has: calls, defaults, parameters, types, members and columns."""
import ast
import dataclasses
import doctest
import inspect
import os
import re
import shutil
import subprocess
import sys
import tempfile
import textwrap
import typing
import unittest

from tool import EXAMPLES, ROOT

import hulltools
from hulltools import inputs, outputs, studies, zones
from hulltools.apart import GRACE
from hulltools.provenance import Provenance, Source
from hulltools.study_tables import hours_table, lists_table, units_table, zonal_table
from hulltools.tables import HEADS, UNITS, Table

OF_NUMBERS = {"in_currency", "in_currency_per_mw", "in_megawatts"}  # (these have a table of their own)
CODE = re.compile(r"`([^`]+)`")


def page():
    with open(f"{ROOT}/docs/PYTHON.md", encoding="utf-8") as text:
        return text.read()


def rows_below(head):
    """The rows of the table with a head, each as its cells."""
    below = page().partition(f"\n{head}\n")[2].split("\n\n")[0]
    return [[cell.strip() for cell in row.strip("|").split(" |")] for row in below.split("\n")[1:]]


def call_named(name):
    """A function or a class of the package, or a method."""
    owner, _, method = name.rpartition(".")
    holders = (hulltools, outputs, studies, zones)
    if not owner:
        return getattr(hulltools, name)
    return getattr(next(getattr(holder, owner) for holder in holders if hasattr(holder, owner)), method)


def definition(call):
    """The syntax tree of a function, or of what makes an object of a class."""
    function = call.__init__ if isinstance(call, type) else call
    return ast.parse(textwrap.dedent(inspect.getsource(function))).body[0]


def types_of(annotation):
    """The types that an annotation has, but for None."""
    if isinstance(annotation, ast.Constant):
        return [] if annotation.value is None else types_of(ast.parse(annotation.value, mode="eval").body)
    holder = ast.unparse(annotation.value) if isinstance(annotation, ast.Subscript) else ""
    if holder == "Optional":
        return types_of(annotation.slice)
    if holder == "Union":
        return [name for part in annotation.slice.elts for name in types_of(part)]
    return [ast.unparse(annotation).replace("Dict[", "dict[").replace("'", "")]


def told_call(name):
    """A call as the page has it, with its defaults."""
    signature = inspect.signature(call_named(name))
    plain = [
        parameter.replace(annotation=inspect.Parameter.empty)
        for parameter in signature.parameters.values()
        if parameter.name != "self"
    ]
    return f"{name}{inspect.Signature(plain)}"


def given_by(name):
    """The types of what a call gives."""
    call = call_named(name)
    if isinstance(call, type):
        return [call.__name__]
    found = types_of(definition(call).returns)
    return [part.__name__ for part in typing.get_args(outputs.Output)] if found[:1] == ["Output"] else found


def parameters_of(name):
    """Each parameter of a call with its types."""
    given = definition(call_named(name)).args
    rest = [it for it in (given.vararg, given.kwarg) if it]
    named = [it for it in (*given.args, *given.kwonlyargs, *rest) if it.arg != "self"]
    return {(it.arg, tuple(types_of(it.annotation))) for it in named}


class Calls(unittest.TestCase):
    def setUp(self):
        self.calls = [(CODE.findall(call)[0], gives) for call, gives, _ in rows_below("| Call | Gives | What it is |")]
        self.names = [call.partition("(")[0] for call, _ in self.calls]

    def test_defaults_are_those_of_the_code(self):
        self.assertEqual([call for call, _ in self.calls], [told_call(name) for name in self.names])

    def test_what_is_given_is_what_the_code_gives(self):
        for name, (_, gives) in zip(self.names, self.calls):
            with self.subTest(name):
                self.assertEqual(CODE.findall(gives), given_by(name))

    def test_each_function_of_the_package_is_told(self):
        functions = {name for name in hulltools.__all__ if inspect.isfunction(getattr(hulltools, name))}
        self.assertGreater(len(functions), 20)
        self.assertEqual(functions - OF_NUMBERS - set(self.names), set())
        self.assertEqual({name for name in OF_NUMBERS if f"`{name}(" not in page()}, set())
        self.assertEqual(functions - set(dir(hulltools)), set())

    def test_parameters_have_the_types_of_the_code(self):
        rows = self.parameters()
        told = [(name, tuple(CODE.findall(types))) for names, types, _ in rows for name in CODE.findall(names)]
        self.assertEqual(len(told), len(set(told)))
        self.assertEqual(set(told), {it for name in self.names for it in parameters_of(name)})

    def test_what_none_means_to_the_program_is_what_its_help_says(self):
        with open(f"{ROOT}/docs/help.txt", encoding="utf-8") as text:
            options = re.findall(r"^  --(\w+) [A-Z] +(.+(?:\n {10,}.+)*)", text.read(), re.M)
        told = {CODE.findall(name)[0]: re.search(r"None is ([\d,.]+)", what) for name, _, what in self.parameters()}
        due = {name: set(re.findall(r"[\d.]+\d|\d", says)) for name, says in options if "by default" in says}
        checked = {name: it[1].strip(",").replace(",", "") for name, it in told.items() if it}
        self.assertEqual(set(checked), {"proposals", "ahead", "radius", "within", "rounds"})
        self.assertEqual([name for name, number in checked.items() if number not in due[name]], [])

    def test_a_solver_gets_the_seconds_that_are_told(self):
        told = next(what for name, _, what in self.parameters() if CODE.findall(name) == ["seconds"])
        self.assertIn("A solver gets two seconds more", told)
        self.assertEqual(GRACE, 2)

    def parameters(self):
        return rows_below("| Parameter | Type | What it is |")

    def test_what_calls_take_is_what_the_code_takes(self):
        names = {inspect.formatannotation(part): "Name" for part in typing.get_args(inputs.Name)}
        checked = 0
        for row, takes in rows_below("| Type | What it may be |"):
            kind = CODE.findall(row)[0]
            parts = typing.get_args(getattr(inputs, kind, None)) if kind.startswith("Given") else ()
            due = {names.get(inspect.formatannotation(part), name_of(part)) for part in parts}
            if parts:
                told, has, more = takes.partition(", or what has")
                self.assertEqual(set(CODE.findall(told)) | {f"Has{word}" for word in has_of(more)}, due, kind)
                checked += 1
        self.assertEqual(checked, 6)


def name_of(part):
    """The name of a type, also of one that is named by a text alone."""
    return getattr(part, "__forward_arg__", getattr(part, "__name__", ""))


def has_of(text):
    """The member that an object has to have, as the name of a protocol has it."""
    return [word.capitalize() for word in CODE.findall(text)[:1]]


def told_columns(row):
    """The whole names of the columns that a row tells."""
    return [[f"{name}{end}" for name in CODE.findall(cell)] for end, cell in zip(ENDS, row[2:])]


ENDS = ("", *(f"_{UNITS[unit][2]}" for unit in ("money", "price", "kw")))


class Members(unittest.TestCase):
    def test_objects_have_the_members_that_are_told(self):
        rows = rows_below("| Type | Members |")
        self.assertGreater(len(rows), 8)
        for types, told in rows:
            names = [re.match(r"\w+", code)[0] for code in CODE.findall(told) if code not in hulltools.__all__]
            for name in CODE.findall(types):
                kind = getattr(hulltools, name)
                told_types = (getattr(base, "__annotations__", {}) for base in kind.__mro__)
                known = {*dir(kind), *(member for types_told in told_types for member in types_told)}
                self.assertEqual([member for member in names if member not in known], [], name)

    def test_members_that_may_be_none_are_told(self):
        rows = {name: told for types, told in rows_below("| Type | Members |") for name in CODE.findall(types)}
        checked = 0
        for name, kind in (("Made", hulltools.Made), ("Study", hulltools.Study), ("GapParts", hulltools.GapParts)):
            getters = {key: it.fget.__annotations__["return"] for key, it in vars(kind).items() if is_getter(it)}
            types = {**{field.name: field.type for field in dataclasses.fields(kind)}, **getters}
            for member in (key for key, given in types.items() if "Optional[" in str(given)):
                if f"`{member}" in rows[name]:
                    self.assertRegex(rows[name].partition(f"`{member}")[2], "^[^;]*None where|None without", member)
                    checked += 1
        self.assertEqual(checked, 11)


def is_getter(member):
    return isinstance(member, property) and "return" in member.fget.__annotations__


class Faults(unittest.TestCase):
    """The table of what a script may branch on has the faults of docs/FAULTS.md."""

    def test_each_status_has_its_word_and_its_codes(self):
        with open(f"{ROOT}/docs/FAULTS.md", encoding="utf-8") as text:
            lines = set(re.findall(r"`fault (\d+) (\w+)(?: (\d+)\b)?", text.read()))
        # (6 ends no call, since its output is a pipe, and 8 is of a report, which no call gives)
        due = {(status, word, code if word not in ("work", "memory") else "") for status, word, code in lines}
        due = {it for it in due if it[0] not in ("6", "8")}
        told = {}
        for status, line, _, codes in rows_below("| `status` | The fault line begins | What is refused | `code` |"):
            if line:
                told[tuple(CODE.findall(line)[0].split()[1:])] = codes_of(codes)
                self.assertEqual(CODE.findall(line)[0].split()[1], status)
        self.assertEqual(set(told), {it[:2] for it in due})
        missing = {it for it in due if it[2] and int(it[2]) not in told[it[:2]]}
        self.assertEqual(missing, set())


def codes_of(cell):
    """The codes of a cell, as `10 to 13, 32`."""
    found = set()
    for first, last in re.findall(r"(\d+)(?: to (\d+))?", cell):
        found.update(range(int(first), int(last or first) + 1))
    return found


class Types(unittest.TestCase):
    """What the page has of Python is what a type checker takes, each part by itself."""

    def test_the_page_is_taken_by_mypy(self):
        mypy = shutil.which("mypy")
        if mypy is None:
            self.skipTest("there is no mypy here")
        text = page()
        parts = re.findall(r"```python\n(.*?)```", text, re.S)
        parts += ["".join(example.source for example in it) for it in sessions(text)]
        self.assertGreater(len(parts), 15)
        given = 'import hulltools\nfiles = ("a", "b")\ncase = hulltools.read_case("a")\n'
        with tempfile.TemporaryDirectory(prefix="hull-page-") as room:
            for place, part in enumerate(parts):
                with open(f"{room}/part_{place}.py", "w", encoding="utf-8") as file:
                    file.write(given + part)
            words = ["--strict", "--no-site-packages", "--ignore-missing-imports", "--disable-error-code=name-defined"]
            ran = subprocess.run(
                [mypy, "--cache-dir", f"{room}/cache", "--config-file", os.devnull, *words, room],
                env={**os.environ, "MYPYPATH": f"{ROOT}/tools"},
                capture_output=True,
                text=True,
                check=False,
            )
        self.assertEqual(ran.returncode, 0, ran.stdout + ran.stderr)


def sessions(text):
    """The examples of a page, those together that no prose parts."""
    found, end = [], -1
    for example in doctest.DocTestParser().get_examples(text):
        if example.lineno != end:
            found.append([])
        found[-1].append(example)
        end = example.lineno + example.source.count("\n") + example.want.count("\n")
    return found


class Columns(unittest.TestCase):
    HEAD = " | A row for each | No end | `_currency` | `_currency_per_mw` | `_mw` |"

    def check_frames(self, kind, tables):
        rows = rows_below(f"| {kind}{self.HEAD}")
        self.assertEqual([CODE.findall(row[0])[0] for row in rows], list(tables))
        for row, (name, table) in zip(rows, tables.items()):
            columns = told_columns(row)
            self.assertEqual(sorted(name for part in columns for name in part), sorted(table.heads), name)
            with_an_end = [head for head in table.heads if head.endswith(ENDS[1:])]
            self.assertEqual(sorted(name for part in columns[1:] for name in part), sorted(with_an_end), name)
            # (in the order of the columns, as far as a cell goes)
            for part in columns:
                self.assertEqual(part, [head for head in table.heads if head in part], name)

    def test_frames_of_texts(self):
        self.check_frames("Frame of a text", {name: Table(heads.split(), True) for name, heads in HEADS.items()})
        ends = {f"`_{exact}`" for _, exact, _ in UNITS.values()}
        told = re.search(r"With `money=\"millionths\"` the ends are\s+([^.]+)\.", page())
        self.assertEqual({f"`{end}`" for end in CODE.findall(told[1])}, ends)

    def test_each_column_is_explained(self):
        told = [name for cell, _ in rows_below("| Column | What it is |") for name in CODE.findall(cell)]
        due = {head.partition(":")[0] for heads in HEADS.values() for head in heads.split()}
        self.assertEqual(set(told) - {"prices", "responses"}, due)
        self.assertEqual(sorted(name for name in told if told.count(name) > 1), ["reserve", "reserve"])

    def test_frames_of_a_study(self):
        case = hulltools.read_case(f"{EXAMPLES}/usual/case.json")
        versions = dict.fromkeys(("hull", "python", "scipy", "highs"), "")
        origin = Provenance("case", "", Source("schedule", "", ""), None, versions, "", "")
        study = studies.Study(case, hulltools.Schedule({}), studies.Wanted(), origin, 0)
        makers = {"lists": lists_table, "units": units_table, "hours": hours_table}
        tables = {name: table(study, with_keys=True) for name, table in makers.items()}
        zonal = zones.Zonal(zones.Zones({}, {}), {}, [])
        self.check_frames("Frame of a study", {**tables, "Zonal.frame()": zonal_table(zonal)})


if __name__ == "__main__":
    sys.exit(unittest.main())
