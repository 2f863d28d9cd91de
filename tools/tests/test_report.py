"""tools/report.py: tables, pictures, pages and prices of the texts of hull, and what it says of a text that is none."""
import csv
import io
import json
import os
import re
import shutil
import sys
import tempfile
import threading
import time
import unittest
from pathlib import Path
from unittest import mock

from tool import EXAMPLES, PROGRAM, python_with, run

from hulltools.charts import Chart
from hulltools.errors import read_bytes

ODD = """hull-report 1
periods 1
units 1
budget 1
ahead 1
cost -5
proposals 1
proposal 1 value -5
energy -3
reserve 0
supplied 0
reserved 0
chosen 1 value -5
unit renewable "<b>\\"a\\\\\\u0001,$x$</b>" earned 0 scheduled 0 payment 0
power 0
surplus 0
payments 0
gap 0
end
"""

SETTLED = """hull-settlement 1
periods 1
units 2
cost 850000000
value 686000000
energy 98000
reserve 0
supplied 3000
reserved 0
unit thermal "G1" earned 0 scheduled -66000000 payment 66000000
on 0
power 0
reserve 0
unit renewable "W1" earned 294000000 scheduled 196000000 payment 98000000
power 3000
surplus 0
payments 164000000
gap 164000000
end
"""
CERTIFIED = """hull-certificate 1
periods 1
units 2
cost 850000000
value 686000000
surplus 0
payments 164000000
gap 164000000
radius 1000
bound 723000000
distance 37000000
least 127000000
end
"""


class Report(unittest.TestCase):
    def setUp(self):
        self.room = tempfile.mkdtemp(prefix="hull-report-")
        self.addCleanup(shutil.rmtree, self.room)

    def report(self, verb, name, to, **how):
        return run("report.py", verb, name, f"{self.room}/{to}", **how)

    def table(self, name):
        with open(f"{self.room}/tables/{name}", newline="", encoding="utf-8") as file:
            return list(csv.reader(file))

    def write(self, text):
        with open(f"{self.room}/report.txt", "w", encoding="utf-8") as file:
            file.write(text)
        return f"{self.room}/report.txt"

    def read(self, name):
        with open(f"{self.room}/{name}", encoding="utf-8") as file:
            return file.read()

    def test_tables_of_the_usual_unit(self):
        report = f"{EXAMPLES}/usual/price.output"
        self.assertEqual(self.report("csv", report, "tables"), (0, "", ""))
        self.assertEqual(
            self.table("proposals.csv"),
            [
                ["report", "proposal", "value_millionths", "chosen"],
                [report, "1", "686000000", "1"],
                [report, "2", "466796000", "0"],
            ],
        )
        self.assertEqual(
            [it[2:9] for it in self.table("prices.csv")[1:]],
            [["1", "1", "1", "98000", "0", "3000", "0"], ["2", "0", "1", "119660", "6188", "23000", "0"]],
        )
        self.assertEqual(
            [it[2:] for it in self.table("units.csv")[1:]],
            [
                ["thermal", "G1", "0", "-66000000", "66000000", "66000000", "0"],
                ["renewable", "W1", "294000000", "196000000", "98000000", "0", "98000000"],
            ],
        )
        self.assertEqual(
            [it[1:7] for it in self.table("responses.csv")[1:]],
            [["thermal", "G1", "1", "0", "0", "0"], ["renewable", "W1", "1", "1", "3000", "0"]],
        )

    def row(self, name, place=0):
        """A row of a table by its heads."""
        head, *rows = self.table(name)
        return dict(zip(head, rows[place]))

    def test_no_second_text_is_replaced(self):
        text = self.write(SETTLED)
        for verb in ("page", "plot", "prices", "mixture"):
            status, _, said = run("report.py", verb, f"{EXAMPLES}/usual/price.output", text)
            due = f"report.py: {text}: this is a text of hull, and it would be replaced: {verb} takes one text\n"
            self.assertEqual((status, said, self.read("report.txt")), (1, due, SETTLED))

    def test_several_texts_in_the_currency_beside_case_and_schedule(self):
        texts = [self.write(SETTLED), f"{EXAMPLES}/usual/price.output"]
        files = ["--case", f"{EXAMPLES}/usual/case.json", "--schedule", f"{EXAMPLES}/usual/schedule.json"]
        ran = run("report.py", "csv", *texts, f"{self.room}/tables", *files, "--currency")
        self.assertEqual(ran, (0, "", ""))
        self.assertEqual([it[0] for it in self.table("runs.csv")[1:]], texts)
        settled = self.row("runs.csv")
        self.assertEqual([settled[it] for it in ("command", "chosen", "value_currency")], ["settle", "", "686"])
        self.assertEqual(self.row("prices.csv")["energy_currency_per_mw"], "98")
        self.assertEqual([self.row("prices.csv")[it] for it in ("demand_mw", "requirement_mw")], ["10", "2"])
        response = self.row("responses.csv")
        self.assertEqual(
            [response[it] for it in ("power_mw", "scheduled_on", "scheduled_power_mw", "scheduled_reserve_mw")],
            ["0", "1", "8", "2"],
        )

    def test_page_beside_case_and_schedule(self):
        files = ["--case", f"{EXAMPLES}/usual/case.json", "--schedule", f"{EXAMPLES}/usual/schedule.json"]
        self.assertEqual(run("report.py", "page", self.write(SETTLED), f"{self.room}/page.html", *files), (0, "", ""))
        page = self.read("page.html")
        self.assertIn(">Schedule, MW periods<", page)
        self.assertIn('<td data-is="0">0.000</td><td data-is="8000">8.000</td></tr>', page)
        self.assertIn('"scheduled":[8000]', page)

    def test_texts_of_fixed_bound_and_certify(self):
        certified = self.write(CERTIFIED)
        texts = [f"{EXAMPLES}/two_units/fixed-2.output", f"{EXAMPLES}/two_units/bound.output", certified]
        self.assertEqual(run("report.py", "csv", *texts, f"{self.room}/tables"), (0, "", ""))
        sides = [self.row("runs.csv", place) for place in range(4)]
        self.assertEqual([it["command"] for it in sides], ["fixed", "fixed", "bound", "certify"])
        self.assertEqual([it["payments_millionths"] for it in sides], ["1000", "2000", "", "164000000"])
        self.assertEqual([it["distance_millionths"] for it in sides], ["", "", "500", "37000000"])
        self.assertEqual(
            [it[1:4] + it[6:7] for it in self.table("units.csv")[1:]],
            [
                ["hull", "thermal", "A", "1000"],
                ["hull", "thermal", "B", "0"],
                ["fixed", "thermal", "A", "0"],
                ["fixed", "thermal", "B", "2000"],
            ],
        )

    def certified(self, text=CERTIFIED, *more):
        """Makes the page of the settlement with a certificate; what was said, and the page."""
        with open(f"{self.room}/certificate", "w", encoding="utf-8") as file:
            file.write(text)
        words = (self.write(SETTLED), f"{self.room}/page.html", "--certificate", f"{self.room}/certificate", *more)
        status, _, said = run("report.py", "page", *words)
        self.assertEqual((status, said.count("\n")), (1, 1) if said else (0, 0))
        return said, "" if said else self.read("page.html")

    def test_a_certificate_alone_is_not_taken_for_that_of_these_prices(self):
        said, page = self.certified()
        self.assertEqual(said, "")
        self.assertIn("this page can't tell whether it is of these: --mixture can", page)
        self.assertIn("and within 1.000 per MW and period of its prices need less than 127.00 for its schedule", page)
        self.assertNotIn("these need 164.00", page)

    def test_levels_of_a_picture_that_are_near_each_other_are_told_apart(self):
        """Values near 23.4 million that are less than 100 apart."""
        for low, high in ((23434565.25, 23434590.5), (-23434565.25, -23434565.2), (0, 90)):
            told = re.findall(r'text-anchor="end">([^<]*)', Chart("Values", low, high, 1, 2).svg())
            self.assertEqual(len(told), len(set(told)), told)
        self.assertEqual(told[:3], ["0", "20", "40"])

    def test_a_certificate_of_other_sums_is_refused(self):
        other = CERTIFIED.replace("payments 164", "payments 163").replace("surplus 0", "surplus 1000000")
        rows = [(CERTIFIED.replace("periods 1", "periods 2"), "its periods are 2, and the text's 1")]
        rows += [(CERTIFIED.replace("units 2", "units 3"), "its units are 3, and the text's 2")]
        rows += [(other, "its surplus is 1000000, and the text's 0")]
        for text, why in rows:
            said, _ = self.certified(text)
            self.assertIn(f"of another case, of other prices or of another schedule: {why}", said)

    def test_with_a_mixture_the_program_says_how_near_these_prices_are(self):
        files = ["--case", f"{EXAMPLES}/usual/case.json", "--schedule", f"{EXAMPLES}/usual/schedule.json"]
        files += ["--mixture", f"{EXAMPLES}/certified/mixture.json", "--hull", PROGRAM]
        said, page = self.certified(CERTIFIED, *files)
        self.assertEqual(said, "")
        self.assertIn(
            "of these need less than 127.00 of payments and surplus for this schedule; these need 164.00", page
        )
        self.assertIn("within 37.00 of the greatest there", page)
        other = CERTIFIED.replace("bound 723", "bound 700").replace("distance 37", "distance 14").replace("127", "150")
        self.assertIn("of other prices or of another mixture", self.certified(other, *files)[0])
        stuck = f"{self.room}/stuck"
        with open(stuck, "w", encoding="utf-8") as file:
            file.write("#!/bin/sh\nexec sleep 60\n")
        os.chmod(stuck, 0o755)
        over = self.certified(CERTIFIED, *files, "--seconds", "0.2", "--hull", stuck)[0]
        self.assertEqual(over, "report.py: the outer limit of 0.2 s is over: hull certify\n")
        words = ("page", self.write(SETTLED), f"{self.room}/page.html", "--mixture", f"{self.room}/certificate")
        self.assertIn("--mixture goes with --case and --schedule", run("report.py", *words)[2])

    def test_a_page_with_a_mixture_is_of_the_files_that_were_read_first(self):
        """The program certifies with copies of them; what a pipe brings is copied too."""
        given = {f"{self.room}/{what}": f"{EXAMPLES}/usual/{what}.json" for what in ("case", "schedule")}
        given[f"{self.room}/mixture"] = f"{EXAMPLES}/certified/mixture.json"
        hull = Path(self.room, "changing.sh")
        change = "".join(f"[ -p {name} ] || echo >{name}; " for name in given)
        hull.write_text(f'#!/bin/sh\n[ "$1" != certify ] || {{ {change}}}\nexec {PROGRAM} "$@"\n', encoding="utf-8")
        hull.chmod(0o755)
        words = [*(word for name in given for word in (f"--{os.path.basename(name)}", name)), "--hull", str(hull)]
        for name, source in given.items():
            shutil.copyfile(source, name)
        said, page = self.certified(CERTIFIED, *words)
        self.assertEqual((said, page.count("of these need less than 127.00 of payments and surplus")), ("", 1))
        for name, source in given.items():
            os.unlink(name)
            os.mkfifo(name)
            data = Path(source).read_bytes()
            threading.Thread(target=Path(name).write_bytes, args=(data,), daemon=True).start()
        self.assertEqual(self.certified(CERTIFIED, *words), (said, page))

    def test_no_page_shows_another_schedule_beside_a_text(self):
        schedule = f"{self.room}/schedule.json"
        with open(f"{EXAMPLES}/usual/schedule.json", encoding="utf-8") as file:
            value = json.load(file)
        value["renewable"]["W1"] = [1999]
        value["thermal"]["G1"]["power"] = [8001]
        with open(schedule, "w", encoding="utf-8") as file:
            json.dump(value, file)
        files = ["--case", f"{EXAMPLES}/usual/case.json", "--schedule", schedule]
        status, _, said = run("report.py", "page", self.write(SETTLED), f"{self.room}/page.html", *files)
        self.assertEqual((status, said.count("\n"), os.path.exists(f"{self.room}/page.html")), (1, 1, False), said)
        self.assertIn("is of another schedule", said)

    def test_numbers_that_contradict_each_other_are_refused(self):
        rows = [
            (SETTLED, "payments 164", "payments 165", "the sum of payments is 165000000, and by the others 164000000")
        ]
        rows += [(SETTLED, "gap 164", "gap 165", "the gap is 165000000, and by the others 164000000")]
        rows += [(SETTLED, "payment 66", "payment 67", 'the payment of "G1" is 67000000, and by the others 66000000')]
        rows += [
            (SETTLED, "supplied 3000", "supplied 3001", "what is supplied in period 1 is 3001, and by the others 3000")
        ]
        rows += [(CERTIFIED, "distance 37", "distance 36", "the distance is 36000000, and by the others 37000000")]
        rows += [(CERTIFIED, "least 127", "least 128", "the least is 128000000, and by the others 127000000")]
        with open(f"{EXAMPLES}/two_units/fixed-2.output", encoding="utf-8") as file:
            fixed = file.read()
        both = "the sum of payments and surplus is"
        rows += [(fixed, "surplus hull 0", "surplus hull 7", f"{both} 1007, and by the others 1000")]
        rows += [(fixed, "value 3500", "value 1499", f"{both} 2000, and by the others 2001")]
        for text, old, new, why in rows:
            status, _, said = self.report("csv", self.write(text.replace(old, new)), "tables")
            due = f"report.py: {self.room}/report.txt: its numbers contradict each other: {why}\n"
            self.assertEqual((status, said), (1, due))

    def test_a_text_that_is_named_twice_is_refused(self):
        text = self.write(SETTLED)
        status, _, said = run("report.py", "csv", text, text, f"{self.room}/tables")
        due = f"report.py: {text} is named twice, and its rows in the tables would be one text's\n"
        self.assertEqual((status, said, os.path.exists(f"{self.room}/tables")), (1, due, False))

    def test_tables_need_a_folder(self):
        text = self.write(SETTLED)
        status, _, said = run("report.py", "csv", f"{EXAMPLES}/usual/price.output", text)
        due = f"report.py: {text}: this is a file: behind its texts csv takes the folder for the tables\n"
        self.assertEqual((status, said, self.read("report.txt")), (1, due, SETTLED))

    def test_prices_of_a_report_and_of_a_settlement(self):
        for text in (f"{EXAMPLES}/usual/price.output", self.write(SETTLED)):
            self.assertEqual(self.report("prices", text, "prices.json"), (0, "", ""))
            self.assertEqual(json.loads(self.read("prices.json")), {"energy": [98], "reserve": [0]})

    def test_names_that_a_spreadsheet_evaluates_are_told_apart(self):
        rows = [("=1+1", "'=1+1"), ("'=1+1", "''=1+1"), ("@a", "'@a"), ("a=1", "a=1"), ("x;=1+1", "x;'=1+1")]
        rows += [("x; -1;+2", "x;' -1;'+2"), ("x;'y", "x;''y"), ("x;y", "x;y"), ("\uff1d1+1", "'\uff1d1+1")]
        rows += [(" =1+1", "' =1+1"), ("\n=1+1", "'\n'=1+1"), ("a\n@b", "a\n'@b"), ("\t\tx", "'\t'\tx")]
        for name, told in rows:
            written = json.dumps(name, ensure_ascii=False).replace("\\n", "\\u000a").replace("\\t", "\\u0009")
            text = self.write(SETTLED.replace('"W1"', written))
            self.assertEqual(self.report("csv", text, "tables")[0], 0)
            self.assertEqual(self.table("units.csv")[2][3], told)
            self.assertEqual(run("report.py", "csv", text, f"{self.room}/tables", "--names-as-they-are")[2], "")
            self.assertEqual(self.table("units.csv")[2][3], name)

    def test_a_line_ends_at_a_line_feed_alone(self):
        name = "W\u2028i\u2029n\x85d"
        self.assertEqual(self.report("csv", self.write(SETTLED.replace("W1", name)), "tables")[0], 0)
        self.assertEqual(self.table("units.csv")[2][3], name)

    def test_what_audit_calls_out_of_form_is_refused_in_one_line(self):
        changes = [
            ("energy 98000", "energy 098000"),
            ("reserve 0", "reserve -0"),
            ("end\n", "end"),
            ("end\n", "end\nmore\n"),
        ]
        changes += [
            ("\n", "\r\n"),
            ('"G1"', '"\\x"'),
            ('"G1"', '"\\ud800"'),
            ("periods 1", "periods 0"),
            ("units 2", "units 3"),
        ]
        changes += [
            ("gap 1", f"gap 1{'0' * 5000}"),
            ("earned 0", f"earned 1{'0' * 30}"),
            ("energy 98000", "energy 10000001"),
        ]
        for old, new in changes:
            status, _, said = self.report("csv", self.write(SETTLED.replace(old, new)), "tables")
            self.assertEqual((status, said.count("\n")), (1, 1), (new, said))
            self.assertIn("not a line of a ", said)

    def test_a_report_with_large_amounts_has_a_page(self):
        for cost in ("6900000000000001000000", "9" * 23, "-" + "9" * 38, "0"):
            text = ODD.replace("cost -5", f"cost {cost}").replace("value -5", f"value {cost}")
            self.assertEqual(self.report("page", self.write(text), "page.html"), (0, "", ""))

    def test_no_text_is_replaced_and_no_file_is_cut(self):
        text = self.write(SETTLED)
        for verb in ("page", "prices", "plot"):
            status, _, said = self.report(verb, text, "report.txt")
            self.assertEqual((status, said.count("\n")), (1, 1))
            self.assertEqual(self.read("report.txt"), SETTLED)
        self.assertIn("No space left", run("report.py", "page", text, "/dev/full")[2])
        self.assertEqual(os.listdir(self.room), ["report.txt"])

    def test_tables_of_the_day_have_a_row_each(self):
        self.assertEqual(self.report("csv", f"{EXAMPLES}/day/price.output", "tables")[0], 0)
        self.assertEqual(
            [len(self.table(f"{it}.csv")) - 1 for it in ("runs", "proposals", "prices", "units", "responses")],
            [1, 100, 100 * 48, 154, 154 * 48],
        )

    def test_odd_names_stay_themselves(self):
        name = self.write(ODD)
        self.assertEqual(self.report("csv", name, "tables")[0], 0)
        self.assertEqual(self.table("units.csv")[1][3], '<b>"a\\\x01,$x$</b>')
        self.assertEqual(self.report("page", name, "page.html")[0], 0)
        self.assertNotIn("<b>&quot;", self.read("page.html"))
        self.assertIn("&lt;b&gt;&quot;a\\", self.read("page.html"))

    def test_page_needs_nothing_else_and_has_every_unit(self):
        for example, units in (("day", 154), ("windows", 19), ("first", 1)):
            self.assertEqual(self.report("page", f"{EXAMPLES}/{example}/price.output", "page.html"), (0, "", ""))
            page = self.read("page.html")
            self.assertEqual(page.count("<tr data-unit="), units)
            self.assertEqual(page.count("<svg") - page.count("`<svg"), 2)
            self.assertNotIn("http", page)
            self.assertNotIn(" src=", page)

    def test_picture(self):
        python = python_with("matplotlib")
        if not python:
            self.skipTest("no Python here has matplotlib")
        for example in ("windows", "first"):
            self.assertEqual(
                self.report("plot", f"{EXAMPLES}/{example}/price.output", "picture.png", python=python)[0], 0
            )
            with open(f"{self.room}/picture.png", "rb") as file:
                self.assertTrue(file.read().startswith(b"\x89PNG"))
        self.assertEqual(self.report("plot", self.write(ODD), "picture.svg", python=python)[0], 0)
        # (prices of one period are a line as wide as the period)
        self.assertEqual(self.report("plot", self.write(SETTLED), "one.svg", python=python)[0], 0)
        lines = re.findall(
            r'<path d="M ([0-9.]+) ([0-9.]+) \n(?:L [0-9. ]+\n)*L ([0-9.]+) \2 \n" [^>]*stroke: #1f77b4',
            self.read("one.svg"),
        )
        self.assertGreater(max(float(end) - float(begin) for begin, _, end in lines), 300)
        odd_letters = self.write(SETTLED.replace("W1", "\uff1d\U0001f600\u0378"))
        self.assertEqual(self.report("plot", odd_letters, "picture.png", python=python), (0, "", ""))
        for name in ("picture.odd", "picture.pgf"):
            status, _, said = self.report("plot", f"{EXAMPLES}/first/price.output", name, python=python)
            self.assertEqual((status, f"{name}: a picture's name ends with .png, .svg, .pdf" in said), (1, True), said)
        self.assertEqual((status, said.count("\n")), (1, 1))

    def test_a_picture_is_drawn_with_the_defaults_of_matplotlib(self):
        python = python_with("matplotlib")
        if python is None:
            self.skipTest("no Python here has matplotlib")
        pictures = []
        for text in (b"", b"text.usetex: True\nfigure.facecolor: red\n", b"\x1b[31mx: 1\nbackend: module://none\n"):
            with open(f"{self.room}/matplotlibrc", "wb") as file:
                file.write(text)
            words = ("plot", f"{EXAMPLES}/first/price.output", f"{self.room}/picture.png")
            told = run("report.py", *words, python=python, flags=("-W", "ignore"), cwd=self.room)
            self.assertEqual(told, (0, "", ""))
            with open(f"{self.room}/picture.png", "rb") as file:
                pictures.append(file.read())
        self.assertEqual(pictures[1:], pictures[:1] * 2)
        with open(f"{self.room}/matplotlibrc", "wb") as file:
            file.write(b"\xff")
        told = run("report.py", *words, python=python, flags=("-W", "ignore"), cwd=self.room)
        self.assertEqual((told[0], told[2].count("\n")), (1, 1), told)

    def test_without_matplotlib_it_says_so(self):
        status, _, said = self.report("plot", f"{EXAMPLES}/first/price.output", "picture.png", flags=("-S", "-E"))
        self.assertEqual(
            (status, said),
            (1, "report.py: plot needs matplotlib (Debian: python3-matplotlib); page draws without it\n"),
        )

    def test_what_does_not_begin_as_a_text_is_not_read_to_its_end(self):
        began = time.monotonic()
        status, _, said = self.report("csv", "/dev/zero", "tables")
        self.assertEqual((status, said.count("\n")), (1, 1))
        self.assertLess(time.monotonic() - began, 2)
        with mock.patch.object(sys, "stdin", io.TextIOWrapper(io.BytesIO(b"hull" + b"\0" * 5_000_000))):
            self.assertEqual(len(read_bytes("-", "a text", 2**31, b"hull-")), 1 << 20)

    def test_a_page_of_convex_hull_prices_says_whose_word_the_bound_is(self):
        page, folder = f"{self.room}/page.html", f"{EXAMPLES}/evening"
        text = f"{EXAMPLES}/convex/evening.output"
        self.assertEqual(run("report.py", "page", text, page)[0], 0)
        with open(page, encoding="utf-8") as file:
            self.assertIn("This page takes the bound from the text: --mixture", file.read())
        self.assertEqual(run("report.py", "mixture", text, f"{self.room}/mixture.json")[0], 0)
        words = ["--case", f"{folder}/case.json", "--schedule", f"{folder}/schedule.json", "--hull", PROGRAM]
        self.assertEqual(run("report.py", "page", text, page, *words, "--mixture", f"{self.room}/mixture.json")[0], 0)
        with open(page, encoding="utf-8") as file:
            self.assertIn("No whole prices within the limits need less than", file.read())

    def test_what_is_no_report_is_told_in_one_line(self):
        self.assertEqual(
            self.report("csv", f"{self.room}/none", "tables"),
            (1, "", f"report.py: {self.room}/none: No such file or directory\n"),
        )
        self.assertEqual(
            self.report("csv", self.write("fault 2 read case\n"), "tables")[2],
            f"report.py: {self.room}/report.txt: this run was refused: fault 2 read case\n",
        )
        cut = ODD[: ODD.index("supplied")]
        self.assertEqual(
            self.report("csv", self.write(cut), "tables")[2],
            f"report.py: {self.room}/report.txt, line 11: not a line of a report of `hull price`\n",
        )
        self.assertEqual(
            self.report("csv", self.write(ODD.replace("energy -3", "energy -3 4")), "tables")[2],
            f"report.py: {self.room}/report.txt, line 9: not a line of a report of `hull price`: it has 2 numbers, and not 1\n",
        )
        self.assertEqual(
            self.report("page", f"{EXAMPLES}/two_units/bound.output", "page.html")[2],
            f"report.py: {EXAMPLES}/two_units/bound.output: this is a text of `hull bound`, where a report of `hull price` or a text of "
            "`hull settle` or a text of `hull convex` is due\n",
        )
        self.assertIn(
            "this is a text of `hull check`, where ",
            self.report("csv", f"{EXAMPLES}/evening/check.output", "tables")[2],
        )
        self.assertEqual(self.report("draw", "a", "b")[0], 2)
        os.makedirs(f"{self.room}/folder")
        self.assertEqual(
            self.report("page", self.write(ODD), "folder")[2],
            f"report.py: {self.room}/folder: Is a directory\n",
        )


if __name__ == "__main__":
    unittest.main()
