"""Every function of the program's crates is one that `main` leads to, but for laws and what a list names with its reason."""
import unittest

import calls
from built import ROOT

ALLOWED = f"{ROOT}/.ci/checks/unreached.txt"


def allowed():
    """The functions that may be unreached: lines 'function: reason'."""
    found = {}
    with open(ALLOWED, encoding="utf-8") as lines:
        for line in lines:
            if line.strip() and not line.startswith("#"):
                name, reason = line.rstrip("\n").split(": ", 1)
                found[name] = reason
    return found


class Reach(unittest.TestCase):
    def test_main_reaches_what_the_program_has(self):
        stands_on = {it: on for group in calls.groups().values() for it, on in group.items()}
        left = set(calls.Program(sorted(calls.below("hull_cli", stands_on))).unreached("hull_cli", "main"))
        self.assertEqual(
            sorted(left - set(allowed())), [], "main doesn't reach these, and no line of unreached.txt names them"
        )

    def test_the_list_names_nothing_else(self):
        stands_on = {it: on for group in calls.groups().values() for it, on in group.items()}
        left = set(calls.Program(sorted(calls.below("hull_cli", stands_on))).unreached("hull_cli", "main"))
        self.assertEqual(sorted(set(allowed()) - left), [], "unreached.txt names what is reached or isn't there")
        self.assertTrue(all(len(reason) > 10 for reason in allowed().values()))
