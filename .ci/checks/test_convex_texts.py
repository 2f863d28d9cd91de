"""Texts of `hull convex` beside plain programs.

From prices and mixture of a text all else follows, but for what it says of the search: plain_convex.py works it out anew, for the examples and
for random tiny cases. For tiny ones plain_settle.py and plain_certify.py, which try every schedule, find the same.
"""
import glob
import os
import random
import shlex
import tempfile
import unittest

import plain
import plain_certify
import plain_convex
import plain_settle
from built import EXAMPLES, PROGRAM, ROOT, run

CASES = int(os.environ.get("HULL_PLAIN_CASES", "24"))
ROWS = f"{ROOT}/crates/test_convex"
# What the search for the words of an example, and of a row of test_convex, is over.
FILES = ("case", "schedule")


def lines_of(text):
    return {line.split(" ")[0]: line for line in reversed(text.split("\n"))}


def words_in(name):
    with open(name, encoding="utf-8") as file:
        return shlex.split(file.read())


def read_bytes(name):
    with open(name, "rb") as file:
        return file.read()


def searches():
    """The examples that are searches, by name: their words."""
    found = {name: words_in(name) for name in sorted(glob.glob(f"{EXAMPLES}/**/*.words", recursive=True))}
    return {name.removesuffix(".words"): words for name, words in found.items() if words[0] == "convex"}


def file_of(words, option, folder):
    """The file behind an option."""
    return os.path.join(folder, words[words.index(f"--{option}") + 1])


class Texts(unittest.TestCase):
    maxDiff = 2000

    def test_the_texts_of_examples_are_those_of_a_plain_program(self):
        self.assertGreater(len(searches()), 4)
        for name, words in searches().items():
            files = [file_of(words, it, os.path.dirname(name)) for it in FILES]
            text = read_bytes(f"{name}.output").decode()
            with self.subTest(name):
                self.assertEqual(plain_convex.due(plain_convex.Case(*map(plain_convex.read, files)), text), text)

    def test_what_two_compilers_print_is_the_examples_in_turn(self):
        rows = {name: words for name, words in searches().items() if name.startswith(f"{EXAMPLES}/convex/")}
        texts = [read_bytes(f"{name}.output") for name in rows]
        self.assertEqual(read_bytes(f"{ROWS}/stdout"), b"".join(texts))
        source = read_bytes(f"{ROWS}/src/main.rt").decode()
        for name, words in rows.items():
            for option in FILES:
                kept = f"{os.path.basename(name)}.{option}.json"
                self.assertEqual(
                    read_bytes(f"{ROWS}/data/{kept}"), read_bytes(file_of(words, option, os.path.dirname(name)))
                )
                self.assertIn(f'"--{option}={kept}"', source)

    def test_a_changed_text_is_another_than_is_due(self):
        name, words = next(it for it in searches().items() if it[0].endswith("/evening"))
        files = [file_of(words, it, os.path.dirname(name)) for it in FILES]
        case = plain_convex.Case(*map(plain_convex.read, files))
        text = read_bytes(f"{name}.output").decode()
        of = lines_of(text)
        for word in ("value", "supplied", "reserved", "surplus", "payments", "gap", "bound", "distance", "least"):
            changed = text.replace(of[word], f"{of[word]}1")
            self.assertNotEqual(plain_convex.due(case, changed), changed, word)
        for word in ("share", "on"):
            with self.assertRaises(AssertionError):
                plain_convex.due(case, text.replace(of["share"], f"{of['share']}1"))


class Rounds(unittest.TestCase):
    """A search makes the same rounds whatever their greatest number, so texts of more and more rounds show what it keeps."""

    ROUNDS = (1, 2, 3, 4, 5, 6, 8, 10, 14)

    def found(self, name, rounds):
        """Value and bound of a text."""
        options = [word for it in FILES for word in (f"--{it}", f"{EXAMPLES}/{name}/{it}.json")]
        words = ["convex", *options, "--within", "0", "--rounds", str(rounds)]
        status, output, said = run(words, program=PROGRAM)
        self.assertEqual((status, said), (0, b""))
        of = lines_of(output.decode())
        return tuple(plain_convex.numbers(of[word], word)[0] for word in ("value", "bound"))

    def test_more_rounds_keep_the_greatest_value_and_the_least_bound(self):
        for name in ("windows", "evening"):
            values, bounds = zip(*(self.found(name, rounds) for rounds in self.ROUNDS))
            self.assertEqual(list(values), sorted(values), name)
            # A shorter mixture may take a distance that is greater by a tenth.
            for earlier, (value, bound) in enumerate(zip(values[1:], bounds[1:]), 1):
                self.assertLessEqual(10 * (bound - value), 11 * (min(bounds[:earlier]) - value), name)


class Tiny(unittest.TestCase):
    def searched(self, case, words):
        with tempfile.TemporaryDirectory() as folder:
            case.write(folder)
            files = [f"{folder}/{it}.json" for it in FILES]
            options = [word for pair in zip(("--case", "--schedule"), files) for word in pair]
            status, output, said = run(["convex", *options, *words], program=PROGRAM)
            self.assertEqual((status, said), (0, b""))
            return plain_convex.Case(*map(plain_convex.read, files)), output.decode()

    def test_three_plain_programs_find_what_a_text_says(self):
        for number in range(CASES):
            draw = random.Random(f"convex {number}")
            case = plain.draw_case(draw)
            words = ["--within", str(draw.choice([0, 0, 1000, 10**12])), "--rounds", str(draw.choice([1, 5, 20]))]
            with self.subTest(number=number):
                own, text = self.searched(case, words)
                self.assertEqual(plain_convex.due(own, text), text)
                of = lines_of(text)
                energy, reserve = (plain_convex.numbers(of[it], it) for it in ("energy", "reserve"))
                settled = plain_settle.settlement(case, energy, reserve).split("\n")[4:-2]
                self.assertIn("\n".join(["", *settled, ""]), text)
                whole, behind = (
                    plain_convex.numbers(of["weight"], "weight")[0],
                    text.split("\n").index(of["weight"]) + 1,
                )
                mixture, _ = plain_convex.read_mixture(own, text.split("\n")[behind:])
                bound = plain_certify.bound(
                    case, energy, reserve, (whole, list(mixture.values())), 2 * plain.LARGEST_PRICE
                )
                self.assertEqual(of["bound"], f"bound {bound}")


if __name__ == "__main__":
    unittest.main()
