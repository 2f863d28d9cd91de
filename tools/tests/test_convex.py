"""The text of `hull convex` and the tools over it: by a text written by hand, and by the program's own."""
import os
import tempfile
import unittest

from tool import EXAMPLES, PROGRAM, run

import hulltools
from hulltools.outputs import parse_output

FOLDER = f"{EXAMPLES}/dear_schedule"
FILES = f"{FOLDER}/case.json", f"{FOLDER}/schedule.json"
MIXTURE = """weight 2
mixture thermal "COAL" entries 1
share 2
on 1
power 100000
reserve 0
mixture thermal "BLOCK" entries 2
share 1
on 1
power 50000
reserve 0
share 1
on 0
power 0
reserve 0
mixture thermal "PEAKER" entries 1
share 2
on 0
power 0
reserve 0
mixture thermal "NUCLEAR" entries 1
share 2
on 1
power 10000
reserve 0
"""


def text_by_hand() -> str:
    """The settlement of examples/dear_schedule at 30.00, and the mixture there, whose bound its README works out."""
    with open(f"{FOLDER}/settle.output", encoding="utf-8") as file:
        lines = file.read().split("\n")
    head, rest = lines[1:4], lines[4 : lines.index("end")]
    asked = ["within 1000000", "rounds 150", "made 3"]
    sums = ["bound 2900000000", "distance 0", "least 650000000", "end", ""]
    return "\n".join(["hull-convex 1", *head, *asked, *rest, MIXTURE.rstrip("\n"), *sums])


class Room(unittest.TestCase):
    def setUp(self):
        folder = tempfile.TemporaryDirectory(prefix="hull-convex-")
        self.addCleanup(folder.cleanup)
        self.room = folder.name

    def write(self, name, text):
        with open(f"{self.room}/{name}", "w", encoding="utf-8") as file:
            file.write(text)
        return f"{self.room}/{name}"

    def read(self, name):
        with open(f"{self.room}/{name}", encoding="utf-8") as file:
            return file.read()

    def taken(self, text, case, schedule):
        """Prices and mixture of the text as report.py writes them; the texts of settle and certify of these, as lines."""
        for verb in ("prices", "mixture"):
            self.assertEqual(run("report.py", verb, text, f"{self.room}/{verb}.json"), (0, "", ""))
        hull, files = hulltools.Hull(PROGRAM), (case, schedule, f"{self.room}/prices.json")
        hull.settle(*files)
        settled = hull.last_text.decode().split("\n")
        hull.certify(*files, f"{self.room}/mixture.json")
        return settled, hull.last_text.decode().split("\n")


class ByHand(Room):
    def test_what_is_read(self):
        found = parse_output("by hand", text_by_hand().encode())
        self.assertEqual((found.command, found.within, found.rounds, found.made), ("convex", 1_000_000, 150, 3))
        self.assertEqual((found.prices.energy, found.cost, found.value), ([30_000], 3_550_000_000, 2_900_000_000))
        self.assertEqual((found.payments, found.make_whole, found.gap), (650_000_000, 500_000_000, 650_000_000))
        self.assertEqual((found.bound, found.distance, found.least), (2_900_000_000, 0, 650_000_000))
        self.assertEqual([entry.plan.power for entry in found.mixture.thermal["BLOCK"]], [[50_000], [0]])

    def test_a_text_without_any_one_line_is_refused(self):
        lines = text_by_hand().split("\n")
        for i in range(len(lines)):
            with self.assertRaises(hulltools.HullError, msg=lines[i]):
                parse_output("less", "\n".join(lines[:i] + lines[i + 1 :]).encode(), ("hull-convex 1",))

    def test_mixtures_that_are_none(self):
        for old, new, due in (
            ("share 1\n", "share 2\n", "the unit's shares don't sum to the weight"),
            ('thermal "BLOCK"', 'thermal "COAL"', "another unit's mixture is due here"),
            ("weight 2", "weight 0", "a number is out of its range"),
            ("made 3", "made 1001", "a number is out of its range"),
            ("on 1\npower 50000", "on 2\npower 50000", "a number is out of form or of its range"),
        ):
            with self.assertRaisesRegex(hulltools.HullError, due):
                parse_output("changed", text_by_hand().replace(old, new, 1).encode())

    def test_prices_and_mixture_are_taken_from_it(self):
        settled, certified = self.taken(self.write("convex.txt", text_by_hand()), *FILES)
        for name, lines in (("settle", settled), ("certify", certified)):
            with open(f"{FOLDER}/{name}.output", encoding="utf-8") as file:
                self.assertEqual("\n".join(lines), file.read())

    def test_tables_pages_and_refusals(self):
        text = self.write("convex.txt", text_by_hand())
        self.assertEqual(run("report.py", "csv", text, self.room, "--currency")[0], 0)
        self.assertIn("hull-convex", text_by_hand())
        self.assertIn(",convex,,1,5,,,,,3550,2900,650,500,150,0,650,,2900,0,650", self.read("runs.csv"))
        self.assertEqual(run("report.py", "page", text, f"{self.room}/page.html"), (0, "", ""))
        self.assertIn("the dual value of these is within 0.00 of the greatest", self.read("page.html"))
        status, _, said = run("report.py", "mixture", f"{FOLDER}/settle.output", f"{self.room}/none.json")
        self.assertEqual((status, os.path.exists(f"{self.room}/none.json")), (1, False))
        self.assertIn("this is a text of `hull settle`, where a text of `hull convex` is due", said)

    def program(self):
        """A program that prints the text by hand for `convex`, and is the real one for all else."""
        text = self.write("convex.txt", text_by_hand())
        name = self.write(
            "hull", f'#!/bin/sh\n[ "$1" = convex ] || exec "{PROGRAM}" "$@"\necho "$@" >>"$0.words"\ncat "{text}"\n'
        )
        os.chmod(name, 0o755)
        return name

    def test_the_tool_writes_both_files(self):
        program = self.program()
        words = [*FILES, f"{self.room}/prices.json", f"{self.room}/mixture.json", "--hull", program]
        more = ["--within", "0.25", "--rounds", "7", "--best-schedule", f"{FOLDER}/best.schedule.json"]
        status, _, said = run("convex_prices.py", *words, *more)
        self.assertEqual(status, 0, said)
        due = "at these prices the gap is 650.00: 400.00 is the schedule's part, 250.00 is the duality gap"
        self.assertIn(due, said.splitlines()[-1])
        self.assertIn("as near as was asked for after 3 rounds: hull convex proves", said)
        self.assertEqual(self.read("prices.json"), '{"energy": [30], "reserve": [0]}\n')
        self.assertIn("--within 250000 --rounds 7", self.read("hull.words"))

    def test_a_best_schedule_that_cannot_be_is_refused_before_the_search(self):
        words = [*FILES, f"{self.room}/prices.json", f"{self.room}/mixture.json", "--hull", self.program()]
        rows = ((f"{self.room}/none.json", "fault 2 read schedule"), (f"{EXAMPLES}/usual/schedule.json", "fault 4 "))
        for name, due in rows:
            status, _, said = run("convex_prices.py", *words, "--best-schedule", name)
            self.assertEqual((status, due in said), (1, True), said)
        self.assertNotIn("--case", self.read("hull.words") if "hull.words" in os.listdir(self.room) else "")

    def test_a_case_that_is_changed_meanwhile_is_refused(self):
        with open(FILES[0], encoding="utf-8") as file:
            case = self.write("case.json", file.read())
        program = self.program()
        changing = self.read("hull").replace("\ncat ", f"\necho >>{case}\ncat ")
        self.write("hull", changing)
        words = [case, FILES[1], f"{self.room}/prices.json", f"{self.room}/mixture.json", "--hull", program]
        status, _, said = run("convex_prices.py", *words, "--best-schedule", f"{FOLDER}/best.schedule.json")
        due = f"convex_prices.py: {case} was changed meanwhile, so the gap would be of more than one file: nothing is written\n"
        self.assertEqual((status, said, os.path.exists(f"{self.room}/prices.json")), (1, due, False))

    def test_the_call(self):
        found = hulltools.convex_prices(*FILES, hull=self.program())
        self.assertEqual((found.prices.energy, found.distance, found.mixture.weight), ([30_000], 0, 2))

    def test_a_program_without_the_command_is_refused(self):
        older = self.write("older", "#!/bin/sh\nprintf 'fault 1 words 2 1\\n'\nexit 1\n")
        os.chmod(older, 0o755)
        status, _, said = run("convex_prices.py", *FILES, f"{self.room}/p", f"{self.room}/m", "--hull", older)
        self.assertEqual(
            (status, said), (1, f"convex_prices.py: {older} has no command `convex`: a newer program is needed\n")
        )

    def test_one_file_for_both_is_refused(self):
        status, _, said = run("convex_prices.py", *FILES, f"{self.room}/p", f"{self.room}/p", "--hull", self.program())
        self.assertEqual((status, "prices and mixture need a file each" in said), (1, True))


class Found(Room):
    def test_settle_and_certify_say_the_same_of_what_is_taken(self):
        for example in ("usual", "evening", "windows", "dear_schedule"):
            case, schedule = f"{EXAMPLES}/{example}/case.json", f"{EXAMPLES}/{example}/schedule.json"
            hull = hulltools.Hull(PROGRAM)
            found = hull.convex(case, schedule)
            text = hull.last_text.decode()
            settled, certified = self.taken(self.write("convex.txt", text), case, schedule)
            own = [line for line in text.split("\n") if line]
            asked = ("within", "rounds", "made")
            head = [
                line for line in own[1 : own.index(f"weight {found.mixture.weight}")] if line.split(" ")[0] not in asked
            ]
            self.assertEqual(head, settled[1 : settled.index("end")])
            self.assertEqual(own[-4:-1], certified[-5:-2])
            self.assertLessEqual(found.distance, found.within)

    def test_convex_hull_prices_of_the_usual_unit(self):
        """Of all prices 100.50 for energy and 0.50 for reserve have the greatest dual value, 704.50 (worked by hand)."""
        found = hulltools.convex_prices(
            f"{EXAMPLES}/usual/case.json", f"{EXAMPLES}/usual/schedule.json", 0.01, hull=PROGRAM
        )
        self.assertLessEqual(704_500_000 - found.value, 10_000)
        self.assertLessEqual(704_500_000, found.bound)


if __name__ == "__main__":
    unittest.main()
