"""No function of the program has more than six parameters or twelve clauses, but for those that sizes.txt names with its reason."""
import glob
import os
import unittest

import calls
from built import ROOT

ALLOWED = f"{ROOT}/.ci/checks/sizes.txt"
MOST_PARAMETERS, MOST_CLAUSES = 6, 12


def parts_of(words):
    """How many parts commas make of these words. A comma inside brackets, or behind the last part, makes none."""
    depth, parts, some = 0, 0, False
    for word, before in zip(words, [""] + words):
        depth += word in "([{<"
        depth -= word in ")]}" or (word == ">" and before != "-")
        if word == "," and depth == 0:
            parts, some = parts + some, False
        else:
            some = True
    return parts + some


def sizes_in(words, owner):
    """For each function among the words of a source, its name behind that of its type, its parameters and its clauses."""
    at = 0
    while at < len(words):
        word = words[at]
        if word == "#" and words[at + 1 : at + 2] in (["["], ["!"]):
            at = calls.closing(words, at + 1 + (words[at + 1] == "!")) + 1
        elif word == "ghost":
            at = calls.clause_end(words, at)
        elif word == "mod" and words[at + 2] == "{":
            yield from sizes_in(words[at + 3 : calls.closing(words, at + 2)], owner)
            at = calls.closing(words, at + 2) + 1
        elif word in ("impl", "trait"):
            brace = at
            while words[brace] != "{":
                brace = calls.clause_end(words, brace) if words[brace] in calls.CLAUSES else brace + 1
            end = calls.closing(words, brace)
            yield from sizes_in(words[brace + 1 : end], calls.Source.owner_of(words[at:brace])[0])
            at = end + 1
        elif word == "fn":
            yield f"{owner}::{words[at + 1]}" if owner else words[at + 1], *size_of(words, at + 1)
            at = calls.body_of(words, at + 1)[1]
        else:
            at += 1


def size_of(words, at):
    """The parameters and the clauses of the function whose name stands at `at`."""
    while words[at] != "(":
        at += 1
    end = calls.closing(words, at)
    parameters, at, clauses = parts_of(words[at + 1 : end]), end + 1, 0
    while words[at] not in ("{", ";"):
        clauses += words[at] in ("requires", "ensures")
        at = calls.clause_end(words, at) if words[at] in calls.CLAUSES else at + 1
    return parameters, clauses


def all_sizes():
    """The functions of the program's crates: 'crate::module::name' to their parameters and clauses."""
    found = {}
    for crate in calls.groups()["program"]:
        top = f"{ROOT}/crates/{crate}/src"
        for path in sorted(glob.glob(f"{top}/**/*.rt", recursive=True)):
            module = os.path.relpath(path, top)[: -len(".rt")].replace("/", "::")
            if "tests" in module:
                continue
            with open(path, encoding="utf-8") as text:
                for name, *size in sizes_in(calls.words_of(text.read()), None):
                    found[f"{crate}::{module}::{name}"] = tuple(size)
    return found


def over(sizes):
    return {
        name for name, (parameters, clauses) in sizes.items() if parameters > MOST_PARAMETERS or clauses > MOST_CLAUSES
    }


def allowed():
    """The functions that may be over: lines 'function: reason'."""
    found = {}
    with open(ALLOWED, encoding="utf-8") as lines:
        for line in lines:
            if line.strip() and not line.startswith("#"):
                name, reason = line.rstrip("\n").split(": ", 1)
                found[name] = reason
    return found


class Sizes(unittest.TestCase):
    def test_functions_are_small(self):
        found = all_sizes()
        self.assertGreater(len(found), 1000, "most functions weren't read")
        said = [f"{name}: {found[name]}" for name in sorted(over(found) - set(allowed()))]
        self.assertEqual(said, [], "these have too many (parameters, clauses), and no line of sizes.txt names them")

    def test_the_list_names_nothing_else(self):
        self.assertEqual(
            sorted(set(allowed()) - over(all_sizes())), [], "sizes.txt names what isn't over, or isn't there"
        )
        self.assertTrue(all(len(reason) > 10 for reason in allowed().values()))

    def test_parameters_and_clauses_are_counted(self):
        text = """impl<'a> Pair<A, B> {
            /// One, two.
            fn swap(&mut self, f: impl Fn(A, B) -> A, by: (u32, u32),) -> Result<(A, B), E>
                requires { by.0 ≡ 1 }
                ensures same { self.new ≡ self.old }
            { ensures(1, 2) }
        }
        fn none() {}"""
        self.assertEqual(list(sizes_in(calls.words_of(text), None)), [("Pair::swap", 3, 2), ("none", 0, 0)])


if __name__ == "__main__":
    unittest.main()
