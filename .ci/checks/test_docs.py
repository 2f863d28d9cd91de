"""The docs: files that they name are there, tables are whole, and the manual page shows without a warning."""
import glob
import os
import re
import shutil
import subprocess
import unittest

import calls
from built import ROOT

PAGES = sorted(it for it in glob.glob(f"{ROOT}/**/*.md", recursive=True) if "/out/" not in it)
NAMED = re.compile(r"(?<![\w/.])((?:docs|examples|tools|bench|crates|\.ci)/[\w./-]*\w)")
SECTION = re.compile(r"(docs/\w+\.md)[,:] '([^']+)'")


class Docs(unittest.TestCase):
    def read(self, name):
        with open(name, encoding="utf-8") as file:
            return file.read()

    def text_of(self, crate: str) -> str:
        """The sources, definitions and proofs of a crate."""
        parts = ("src/**/*.rt", "specs/**/*.antt", "proofs/**/*.antt")
        names = [it for part in parts for it in glob.glob(f"{ROOT}/crates/{crate}/{part}", recursive=True)]
        return "".join(map(self.read, names))

    def test_named_files_are_there(self):
        for page in PAGES:
            for name in NAMED.findall(self.read(page)):
                if "NAME" not in name and "/out/" not in name:
                    self.assertTrue(os.path.exists(f"{ROOT}/{name}"), f"{os.path.relpath(page, ROOT)} names {name}")

    def test_named_sections_are_there(self) -> None:
        for page in PAGES:
            for name, section in SECTION.findall(self.read(page)):
                heads = re.findall(r"^#+ (.*)$", self.read(f"{ROOT}/{name}"), re.M)
                self.assertIn(section, heads, f"{os.path.relpath(page, ROOT)} names it in {name}")

    def test_tables_are_whole(self):
        for page in PAGES:
            cells, behind_head = None, False
            for number, line in enumerate(self.read(page).split("\n"), 1):
                at = f"{os.path.relpath(page, ROOT)}, line {number}"
                now = len(re.findall(r"(?<!\\)\|", line)) if line.startswith("|") else None
                self.assertTrue(None in (cells, now) or cells == now, at)
                # A table begins with a head and a rule, also where a blank line stands within it by mistake.
                self.assertTrue(not behind_head or re.fullmatch(r"\|([ :]*-+[ :]*\|)+", line), at)
                behind_head = cells is None and now is not None
                cells = now

    def test_lines_that_report_explains_are_printed_by_examples(self):
        printed = set()
        for name in glob.glob(f"{ROOT}/examples/**/*.output", recursive=True):
            printed.update(self.read(name).split("\n"))
        rows = [it.split(" | ") for it in self.read(f"{ROOT}/docs/REPORT.md").split("\n") if it.startswith("| `")]
        lines = [line for row in rows for line in re.findall(r"`([^`]+)`", re.sub(r"\(`examples/[^)]*\)", "", row[1]))]
        self.assertGreater(len(lines), 30)
        self.assertEqual([it for it in lines if it not in printed], [])

    def test_crates_stand_in_three_groups(self):
        groups = calls.groups()
        self.assertEqual(list(groups), ["program", "laws", "tests"])
        seen = set()
        for group in groups.values():
            for crate, on in group.items():
                ours = {it for it in on if os.path.isdir(f"{ROOT}/crates/{it}")}
                self.assertEqual(sorted(ours - seen), [], f"{crate} stands on crates that come after it")
                seen.add(crate)
        self.assertEqual(sorted(seen), sorted(os.listdir(f"{ROOT}/crates")))

    def test_crates_name_what_they_stand_on(self):
        for group in calls.groups().values():
            for crate, on in group.items():
                text = self.text_of(crate)
                self.assertEqual([it for it in on if not re.search(rf"\b{it}\b", text)], [], crate)

    def test_architecture_says_which_wing_each_crate_is_in(self):
        wings = {"program": "program", "laws": "law", "tests": "test"}
        due = {crate: wings[name] for name, group in calls.groups().items() for crate in group}
        told = {}
        for line in self.read(f"{ROOT}/docs/ARCHITECTURE.md").split("\n"):
            row = re.match(r"\| (`\w+`(?:, `\w+`)*) \| (program|law|test) \|", line)
            if row:
                told.update({crate: row.group(2) for crate in re.findall(r"\w+", row.group(1))})
        self.assertEqual(told, due)

    def test_architecture_has_a_row_of_two_sentences_for_each_crate(self) -> None:
        rows = re.findall(
            r"^\| (`\w+`(?:, `\w+`)*) \| \w+ \| (.+) \|$", self.read(f"{ROOT}/docs/ARCHITECTURE.md"), re.M
        )
        self.assertGreater(len(rows), 40)
        long = [crates for crates, text in rows if ";" in text or len(re.findall(r"[.!?](?: |$)", text)) > 1]
        self.assertEqual(long, [], "a row has at most two sentences, the second without a full stop")

    def test_architecture_says_which_crate_cites_lemmas_of_which(self) -> None:
        order = [crate for group in calls.groups().values() for crate in group]
        due = []
        for crate in order:
            text = self.text_of(crate)
            cited = set(re.findall(r"\b(\w+)(?:\.|::)proofs\b", text)) & set(order) - {crate, "plain_lists"}
            if cited:
                due.append(f"| `{crate}` | {', '.join(f'`{it}`' for it in sorted(cited, key=order.index))} |")
        table = self.read(f"{ROOT}/docs/ARCHITECTURE.md").partition("| Crate | Cites lemmas of |\n|---|---|\n")[2]
        self.assertEqual(table.partition("\n\n")[0].split("\n"), due)

    def declared(self, crate: str) -> set[str]:
        """What a crate declares in its sources and definitions, and the names of its clauses."""
        code = "".join(map(self.read, glob.glob(f"{ROOT}/crates/{crate}/src/**/*.rt", recursive=True)))
        specs = "".join(map(self.read, glob.glob(f"{ROOT}/crates/{crate}/specs/**/*.antt", recursive=True)))
        return {
            *re.findall(r"\b(?:fn|struct|enum|trait|mod|ensures)\s+(\w+)", code),
            *re.findall(r"^(?:pub |data |record )*(\w+)", specs, re.M),
        }

    def test_promises_name_contracts_of_their_crates(self) -> None:
        declared = {crate: self.declared(crate) for crate in os.listdir(f"{ROOT}/crates")}
        here, cited, lost = list(declared), 0, []
        for line in self.read(f"{ROOT}/docs/PROMISES.md").split("\n"):
            if line.startswith(("#", "Crates: ")):
                here = [it for it in re.findall(r"`(\w+)`", line) if it in declared] or list(declared)
            contract = re.split(r"(?<!\\)\|", line.strip("| "))[-1] if line.startswith("| ") else ""
            for name in re.findall(r"`([A-Za-z_][\w:]*)`", contract):
                crate, *rest = name.split("::")
                crates, words = ([crate], rest) if crate in declared else (here, [crate, *rest])
                cited += 1
                if not any(declared[it].issuperset(words) for it in crates):
                    lost.append(name)
        self.assertGreater(cited, 250)
        self.assertEqual(lost, [])

    def test_architecture_says_how_long_the_longest_chain_is(self):
        program = calls.groups()["program"]
        depth = {}
        for crate, on in program.items():
            depth[crate] = 1 + max([depth[it] for it in on if it in program], default=0)
        told = re.search(r"longest chain has (\d+) crates", self.read(f"{ROOT}/docs/ARCHITECTURE.md"))
        self.assertEqual(int(told.group(1)), depth["hull_cli"])

    def test_manual_page_shows_without_a_warning(self):
        if not shutil.which("man"):
            self.skipTest("there is no man here")
        shown = subprocess.run(
            ["man", "--warnings", "-l", f"{ROOT}/docs/hull.1"],
            capture_output=True,
            text=True,
            env={**os.environ, "LC_ALL": "C", "MANWIDTH": "80"},
        )
        if "man-db" in shown.stderr or "has been minimized" in shown.stdout or not shown.stdout:
            self.skipTest(f"man can't show pages here: {shown.stderr.strip()[:100]}")
        self.assertEqual((shown.returncode, shown.stderr), (0, ""))
        self.assertIn("hull price --case F --schedule F", shown.stdout)
