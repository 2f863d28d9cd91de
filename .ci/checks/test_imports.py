"""No source imports a name for its contracts, in a list of names, that it says nowhere else."""
import glob
import os
import re
import unittest

from built import ROOT

IMPORT = re.compile(r"^( *)ghost use ([\w.]+)\.\{([^}]*)\};\n", re.M)
ANY_IMPORT = re.compile(r"^ *ghost use [^;]*;\n", re.M)


def says(text, name):
    """Whether a text says a name. `◌` in it stands for an operand; one whose parts the text has anywhere counts as said."""
    parts = [part for part in name.split("◌") if part]
    if "◌" in name or not re.match(r"\w", name):
        return all(part in text for part in parts)
    return re.search(rf"(?<!\w){re.escape(name)}(?!\w)", text) is not None


def blocks(text):
    """Where each block at the margin that has imports of its own begins and ends."""
    ends = [it.end() for it in re.finditer(r"^}\n", text, re.M)]
    for one in re.finditer(r"^(?:pub )?impl\b", text, re.M):
        end = min((it for it in ends if it > one.start()), default=len(text))
        if any(it.group(1) for it in IMPORT.finditer(text[one.start() : end])):
            yield one.start(), end


def unused(text):
    """The imports that nothing says, each as its path and its words."""
    inner = list(blocks(text))
    found = []
    for one in IMPORT.finditer(text):
        home = next(((begin, end) for begin, end in inner if begin < one.start() < end), None)
        for words in filter(None, map(str.strip, one.group(3).split(","))):
            name = words.split(" as ")[-1]
            if home:
                scope = text[home[0] : home[1]]
            else:
                own = [
                    part
                    for part in inner
                    if name in re.findall(r"[^\s,{}]+", "".join(ANY_IMPORT.findall(text[slice(*part)])))
                ]
                scope = text
                for begin, end in sorted(own, reverse=True):
                    scope = scope[:begin] + scope[end:]
            if not says(ANY_IMPORT.sub("", scope), name):
                found.append((one.group(2), words))
    return found


class Imports(unittest.TestCase):
    def test_each_import_is_said(self):
        files = sorted(glob.glob(f"{ROOT}/crates/*/src/**/*.rt", recursive=True))
        self.assertGreater(len(files), 250, "most files weren't read")
        said = []
        for path in files:
            with open(path, encoding="utf-8") as text:
                said += [f"{os.path.relpath(path, ROOT)}: {words} of {whose}" for whose, words in unused(text.read())]
        self.assertEqual(said, [], "nothing says these imports: drop them, then rt fmt")

    def test_unused_names_are_found(self):
        text = "ghost use A.{◌+◌, ◌-◌, x, y as z};\n\nfn f() ensures { x - x }\n\nimpl Model for T {\n    ghost use B.{x, w};\n\n    x\n}\n"
        self.assertEqual(unused(text), [("A", "◌+◌"), ("A", "y as z"), ("B", "w")])


if __name__ == "__main__":
    unittest.main()
