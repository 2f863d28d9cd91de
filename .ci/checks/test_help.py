"""Pages of help, the version, and the manual page: what the launcher says from docs/help.txt, and that docs/hull.1 says the same."""
import os
import pty
import re
import subprocess
import unittest

from built import LAUNCHER, PROGRAM, ROOT, run
from stub import KIT, Repository

WITHOUT_RT = {"PATH": "/usr/bin:/bin", "HOME": "/"}
with open(f"{ROOT}/docs/help.txt", encoding="utf-8") as page:
    HELP = page.read()
# each command's words, and each option's place and text
USAGES = dict(re.findall(r"^  hull ((?!help|version|prove)[a-z]+) (.+)$", HELP, re.M))
OPTIONS = {
    row[0]: " ".join(row[1].split())
    for row in re.findall(r"^  (--[a-z]+|N)(?: [A-Z])? {2,}(.+(?:\n {10,}.+)*)", HELP, re.M)
}


def manual():
    """The manual page's source without its marks."""
    with open(f"{ROOT}/docs/hull.1", encoding="utf-8") as file:
        lines = [line for line in file.read().split("\n") if not line.startswith('.\\"')]
    plain = []
    for line in lines:
        mark = re.match(r"\.([A-Za-z]{1,2}) ?(.*)", line)
        text = mark[2] if mark else line
        if mark and mark[1] in ("BI", "RB", "IR", "RI", "BR", "IB"):
            text = "".join("".join(it) for it in re.findall(r'"([^"]*)"|(\S+)', text))
        plain.append((mark[1] if mark else "", text.replace("\\-", "-").replace('"', "")))
    return plain


def words_of(text):
    return re.sub(r" +", " ", text).strip()


class Help(unittest.TestCase):
    def shown(self, *words, **how):
        return run(words, program=LAUNCHER, folder="/", env=WITHOUT_RT, **how)

    def test_the_whole_page(self):
        for words in (["help"], ["--help"], ["-h"]):
            self.assertEqual(self.shown(*words), (0, HELP.encode(), b""))

    def test_the_page_of_a_command_has_its_words_and_its_options_alone(self):
        self.assertGreaterEqual(set(USAGES), {"price", "check", "try", "bound", "fixed", "audit"})
        for command, usage in USAGES.items():
            pages = [self.shown(*it) for it in (["help", command], [command, "--help"], [command, "-h"])]
            self.assertEqual(pages, [pages[0]] * 3)
            status, page, said = pages[0]
            self.assertEqual((status, said), (0, b""))
            lines = page.decode().split("\n")
            self.assertEqual([it for it in lines if it.startswith("  hull ")], [f"  hull {command} {usage}"])
            told = [it.split()[0] for it in lines if re.match(r"  [-N]", it)]
            self.assertEqual(told, [it for it in OPTIONS if it in re.findall(r"--[a-z]+|\bN\b", usage)])
            paragraphs = HELP.split("\n\n")
            for due in (paragraphs[0], *(it for it in paragraphs if it.startswith(("Power", "Status")))):
                self.assertIn(due, page.decode().rstrip("\n").split("\n\n"))

    def test_other_words_are_the_programs(self):
        for words in (
            ["help", "nothing"],
            ["help", "help"],
            ["nothing", "--help"],
            ["help", "price", "x"],
            ["price", "--help", "x"],
        ):
            self.assertEqual(self.shown(*words), run(words, program=PROGRAM), words)
        for words in (
            ["--version"],
            ["-V"],
            ["version", "x"],
            ["price", "--case", "--help"],
            ["help", ".*"],
            ["help", ""],
        ):
            self.assertEqual(self.shown(*words), run(words, program=PROGRAM), words)

    def test_an_output_that_cannot_be_written(self):
        for words in (["help"], ["help", "price"], ["version"]):
            with open("/dev/full", "wb") as full:
                self.assertEqual(self.shown(*words, stdout=full)[::2], (6, b""))
            reading, writing = os.pipe()
            os.close(reading)
            self.assertEqual(self.shown(*words, stdout=writing)[::2], (6, b""))
            os.close(writing)
            closed = subprocess.run(
                ["sh", "-c", 'exec "$0" "$@" >&-', LAUNCHER, *words], env=WITHOUT_RT, capture_output=True, timeout=60
            )
            self.assertEqual((closed.returncode, closed.stderr), (6, b""))

    def test_no_word_says_where_to_look_at_a_terminal_alone(self):
        due = (1, b"fault 1 words 1 0\n")
        self.assertEqual(self.shown(), (*due, b""))
        master, terminal = pty.openpty()
        ended = subprocess.run([LAUNCHER], env=WITHOUT_RT, stdout=subprocess.PIPE, stderr=terminal, timeout=60)
        os.close(terminal)
        self.assertEqual((ended.returncode, ended.stdout), due)
        # (the first time it says above that which program it is)
        self.assertRegex(os.read(master, 1000), rb"\A(hull: this is dist/.*\r\n)?see \./hull help\r\n\Z")
        os.close(master)


class Version(Repository):
    def test_it_says_version_kit_and_commit(self):
        self.assertEqual(self.hull("version"), (0, f"hull 1.2.3\nkit {KIT}\ncommit unknown\n".encode(), b""))
        git = ["git", "-c", "user.name=a", "-c", "user.email=a@b"]
        for words in (["init", "-q"], ["add", "."], ["commit", "-qm", "One"]):
            subprocess.run([*git, *words], cwd=self.room, env=self.env, check=True)
        commit = (
            subprocess.run([*git, "rev-parse", "HEAD"], cwd=self.room, capture_output=True, check=True)
            .stdout.decode()
            .strip()
        )
        self.assertEqual(self.hull("version")[1].decode(), f"hull 1.2.3\nkit {KIT}\ncommit {commit}\n")
        self.write("README.md", "Another.\n")
        self.assertEqual(self.hull("version")[1].decode(), f"hull 1.2.3\nkit unknown\ncommit {commit}, changed\n")
        # (what the program was built with is what counts, where there is one)
        self.hull("check")
        self.assertEqual(self.hull("version")[1].decode().split("\n")[1], f"kit {KIT}")

    def test_this_repositorys(self):
        status, text, _ = run(["version"], program=LAUNCHER, env=WITHOUT_RT)
        self.assertEqual(status, 0)
        self.assertRegex(text.decode(), r"\Ahull \d+\.\d+\.\d+\nkit rattle-kit-\S+ logic [0-9a-f]+\ncommit .+\n\Z")


class Manual(unittest.TestCase):
    def test_its_synopsis_is_that_of_the_help(self):
        lines, usages, inside = manual(), [], False
        for mark, text in lines:
            if mark == "SH":
                inside = text == "SYNOPSIS"
            elif inside and mark == "B" and text.startswith("hull "):
                usages.append([text])
            elif inside and mark != "br":
                usages[-1].append(text)
        usages = [
            words_of(re.sub(r"([\[\]])", r" \1 ", " ".join(usage)).replace("[ ", "[").replace(" ]", "]"))
            for usage in usages
        ]
        due = [f"hull {command} {words}" for command, words in USAGES.items()]
        self.assertEqual([it for it in usages if it.split()[1] in USAGES], due)

    def test_it_has_each_command_and_option_with_the_helps_numbers(self):
        told, at = {}, None
        for mark, text in manual():
            if at == "":
                at = text.split()[0] if text else None
                told[at] = ""
            elif mark in ("SH",):
                at = None
            elif at is not None and mark != "TP":
                told[at] += f" {text}"
            at = "" if mark == "TP" else at
        self.assertLessEqual({*USAGES, "help", "version", "prove"}, set(told))
        for option, text in OPTIONS.items():
            if option != "N":
                numbers = [it for it in re.findall(r"\b\d+\b", text)]
                self.assertEqual([it for it in numbers if it not in re.findall(r"\b\d+\b", told[option])], [], option)
        statuses = re.findall(r"(\d+): ", HELP)
        self.assertEqual([it for it in statuses if it not in told], [])
