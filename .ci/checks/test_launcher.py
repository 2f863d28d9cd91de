"""The launcher: it takes a program that is made of what is there, built here or shipped, and proves and builds one where it must.

Proving is tried on a small repository with a stand-in for the kit (stub.py).
"""
import fcntl
import hashlib
import os
import pty
import resource
import shutil
import signal
import stat
import subprocess
import tempfile
import time
import unittest

from built import EXAMPLES, LAUNCHER, ROOT, run
from stub import BUILT, KIT, Repository

WITHOUT_RT = {"PATH": "/usr/bin:/bin", "HOME": "/"}
NOBODY = {"user": 65534, "group": 65534, "extra_groups": []}
NEEDED = ("awk", "grep", "sed", "flock", "nproc")
COREUTILS = "cat chmod env head id ls mkdir mv printf readlink rm sha256sum stat tail".split()


class FirstUse(Repository):
    def test_it_proves_the_programs_crates_alone_and_says_how_far_it_is(self):
        status, output, said = self.hull("price", "--case", "a b")
        self.assertEqual((status, output), (0, b"given price --case a b\n"))
        lines = said.decode().splitlines()
        self.assertRegex(lines[0], r"^hull: proving the 3 crates of the program, \d+ at a time; this is done once$")
        self.assertEqual(
            lines[1:],
            [
                "hull: low is proved, 2 of 3 are left",
                "hull: high is proved, 1 of 3 are left",
                "hull: hull_cli is proved, 0 of 3 are left",
                "hull: the program is built",
            ],
        )
        self.assertEqual(self.asked(), BUILT)

    def test_first_use_too_runs_the_program_from_where_it_was_called(self):
        here = f"{os.path.realpath(self.room)}\n".encode()
        self.assertEqual(self.hull("where")[:2], (0, here))
        self.assertEqual(self.hull("where")[:2], (0, here))

    def test_the_callers_environment_is_the_programs(self):
        self.assertEqual(self.hull("environment")[1], self.hull("environment")[1])

    def test_the_callers_descriptors_are_the_programs(self):
        self.write("nine", "of the caller\n")
        for _ in range(2):
            self.assertEqual(self.call("bash", "-c", "exec ./hull nine 9<nine")[:2], (0, b"of the caller\n"))

    def test_the_kit_gets_the_programs_crates_without_edits_and_what_was_made(self):
        self.write("crates/low/must-fail/a.edit", "")
        self.write("crates/low/out/old", "")
        self.write("crates/hull_cli/data/case.json", "")
        seen = f"{os.path.dirname(self.room)}/seen"
        self.assertEqual(self.hull("src", WHILE=f"find . -type f ! -path '*/out/*' | sort > '{seen}'")[0], 0)
        crates = [f"./crates/{it}/src/lib.rt" for it in ("high", "hull_cli", "low")]
        due = sorted(["./HANDLES", "./crates.txt", "./held", "./crates/hull_cli/data/case.json", *crates])
        self.assertEqual(self.read("../seen").split(), due)

    def test_of_the_repositorys_crates_those_of_the_program_are_proved_each_after_those_below_it(self):
        with open(f"{ROOT}/crates.txt", encoding="utf-8") as file:
            text = file.read()
        lines = [it.split("#")[0].split(":") for it in text.splitlines() if ":" in it.split("#")[0]]
        below = {names.split()[0]: stands_on.split() for names, stands_on in lines}
        below = {name: [it for it in stands_on if it in below] for name, stands_on in below.items()}
        due, found = {"hull_cli"}, ["hull_cli"]
        while found:
            new = set(below[found.pop()]) - due
            due |= new
            found.extend(new)
        self.write("crates.txt", text)
        for name in below:
            self.write(f"crates/{name}/src/lib.rt", "")
        self.assertEqual(self.hull("check")[0], 0)
        proved = []
        for name in self.asked():
            self.assertLessEqual(set(below[name]), set(proved))
            proved.append(name)
        self.assertEqual(sorted(proved), sorted(due))
        self.assertFalse({it for it in below if it.startswith("test_")} & due)

    def test_it_goes_on_where_nobody_reads_what_it_says(self):
        for way in ("2>&-", "2>/dev/full", "2> >(exec 0<&-)"):
            with self.subTest(way):
                self.forget()
                self.assertEqual(self.call("bash", "-c", f"exec ./hull src {way}")[:2], (0, b"one\n"))
                self.assertEqual(self.asked(), BUILT)

    def test_others_may_not_write_what_it_makes(self):
        run(["check"], program=f"{self.room}/hull", env=self.env, preexec_fn=lambda: os.umask(0))
        modes = [stat.S_IMODE(os.stat(it).st_mode) for it in (self.program, self.out, f"{self.program}.made_of")]
        self.assertEqual([it & 0o022 for it in modes], [0, 0, 0])

    def test_what_a_killed_one_left_among_the_temporary_files_is_taken_away(self):
        folders = [f"{self.env['TMPDIR']}/hull-build-{it}" for it in ("dead", "alive", "other")]
        for folder in folders:
            os.makedirs(f"{folder}/crates")
        for folder in folders[:2]:
            self.write(f"{os.path.relpath(folder, self.room)}/held", "")
        with open(f"{folders[1]}/held", encoding="utf-8") as held:
            fcntl.flock(held, fcntl.LOCK_EX)
            self.assertEqual(self.hull("src")[0], 0)
        self.assertEqual([os.path.exists(it) for it in folders], [False, True, True])
        for folder in folders[1:]:
            shutil.rmtree(folder)


class Current(Repository):
    """When the program that is there is taken, and when it is built anew."""

    def setUp(self):
        super().setUp()
        self.assertEqual(self.hull("src")[1], b"one\n")
        self.assertEqual(self.asked(), BUILT)

    def built_anew(self, due, asked=None):
        """The next call builds anew, its program is of that text, and the call behind it builds nothing."""
        self.assertEqual(self.hull("src")[:2], (0, f"{due}\n".encode()))
        self.assertEqual(self.asked(), BUILT if asked is None else asked)
        self.taken(due)

    def taken(self, due="one"):
        self.assertEqual(self.hull("src"), (0, f"{due}\n".encode(), b""))
        self.assertEqual(self.asked(), [])

    def long_ago(self, name):
        os.utime(f"{self.room}/{name}", (10**9, 10**9))

    def test_second_use_asks_for_no_proof(self):
        self.assertEqual(self.hull("--version")[1:], (b"given --version\n", b""))
        self.assertEqual(self.asked(), [])

    def test_contents_that_changed_whatever_their_time(self):
        self.write("crates/low/src/lib.rt", "two\n")
        self.long_ago("crates/low/src/lib.rt")
        self.built_anew("two")

    def test_contents_of_the_same_length_and_time(self):
        file = f"{self.room}/crates/low/src/lib.rt"
        was = os.stat(file)
        self.write("crates/low/src/lib.rt", "two\n")
        os.utime(file, ns=(was.st_atime_ns, was.st_mtime_ns))
        self.built_anew("two")

    def test_a_file_that_was_added_or_removed(self):
        self.write("crates/high/specs/Lib.antt", "definition")
        self.long_ago("crates/high/specs/Lib.antt")
        self.built_anew("one", BUILT[1:])
        # (what was proved before is kept)
        os.remove(f"{self.room}/crates/high/specs/Lib.antt")
        self.assertIn(b"the program is built", self.hull("src")[2])
        self.taken()

    def test_a_file_behind_a_link(self):
        os.remove(f"{self.room}/crates/low/src/lib.rt")
        self.write("elsewhere", "two\n")
        os.symlink("../../../elsewhere", f"{self.room}/crates/low/src/lib.rt")
        self.built_anew("two")
        self.write("elsewhere", "three\n")
        self.long_ago("elsewhere")
        self.built_anew("three")

    def test_times_alone_build_nothing(self):
        for name in ("crates/low/src/lib.rt", "crates.txt", "crates/hull_cli/src/lib.rt"):
            os.utime(f"{self.room}/{name}", (2**32, 2**32))
        os.utime(self.program, (1, 1))
        self.taken()
        copy = f"{self.room}/../copy"
        subprocess.run(["cp", "-a", self.room, copy], check=True)
        self.assertEqual(run(["src"], program=f"{copy}/hull", env=self.env), (0, b"one\n", b""))
        self.assertEqual(self.asked(), [])

    def test_a_crate_that_the_program_does_not_stand_on(self):
        self.write("crates/for_tests/src/lib.rt", "two\n")
        self.taken()

    def test_what_stands_on_a_crate_that_changed_is_proved_again_and_nothing_else(self):
        self.write("crates/high/src/lib.rt", "two\n")
        self.built_anew("one", BUILT[1:])

    def test_another_kit(self):
        self.write("../a kit/KIT-ID", "another kit\n")
        self.built_anew("one")
        # (without a kit on the path the program is taken as it is)
        os.remove(f"{self.kit}/bin/rt")
        self.taken()

    def test_the_launcher_and_rows_of_other_crates_and_comments_build_nothing(self):
        for name in ("hull", "tools/build.sh", "tools/made_of.sh", "crates.txt"):
            self.write(name, self.read(name) + "# changed\n")
            self.taken()
        self.write("crates.txt", self.read("crates.txt").replace("for_tests: low", "for_tests: low high # again"))
        self.taken()

    def test_a_row_of_the_programs_crates(self):
        self.write("crates.txt", self.read("crates.txt").replace("may_wait=3", "may_wait=4"))
        self.assertIn(b"the program is built", self.hull("src")[2])
        self.taken()

    def test_a_program_that_is_empty_or_damaged_or_was_replaced(self):
        with open(self.program, "rb") as file:
            whole = file.read()
        for damaged in (b"", whole[:-1], whole.replace(b"words", b"Words"), b"#!/bin/sh\necho otherwise\n"):
            with open(self.program, "wb") as file:
                file.write(damaged)
            self.built_anew("one", [])
        os.chmod(self.program, 0o644)
        self.built_anew("one", [])

    def test_an_edit_while_it_is_built(self):
        # (the second edit puts back what the prover began with)
        for begun_with, edits in (("two", ["three"]), ("four", ["five", "four"])):
            self.write("crates/low/src/lib.rt", f"{begun_with}\n")
            begun = self.hold("low", "src")
            for text in edits:
                self.write("crates/low/src/lib.rt", f"{text}\n")
            self.go_on()
            self.assertEqual(self.ended(begun)[:2], (0, f"{begun_with}\n".encode()))
            self.assertEqual(self.asked(), BUILT)
            os.remove(f"{self.env['ASKED']}.held")
            self.built_anew(edits[-1], BUILT if edits[-1] != begun_with else [])

    def test_a_look_costs_little(self):
        shutil.copy(f"{ROOT}/crates.txt", self.room)
        for name in os.listdir(f"{ROOT}/crates"):
            for part in ("src", "specs", "proofs"):
                if os.path.isdir(f"{ROOT}/crates/{name}/{part}"):
                    shutil.copytree(
                        f"{ROOT}/crates/{name}/{part}", f"{self.room}/crates/{name}/{part}", dirs_exist_ok=True
                    )
        begin = '. tools/made_of.sh; taken=$(what_is_there); note_what_it_is_made_of "$taken"; tools/ship.sh'
        self.assertEqual(self.call("bash", "-c", f"home=$PWD; {begin}"), (0, b"", b""))

        def seconds():
            before = resource.getrusage(resource.RUSAGE_CHILDREN)
            self.taken()
            after = resource.getrusage(resource.RUSAGE_CHILDREN)
            return after.ru_utime + after.ru_stime - before.ru_utime - before.ru_stime

        # (processor time, on a machine that may be busy)
        self.assertLess(min(seconds() for _ in range(5)), 0.3)
        os.remove(self.program)
        self.assertLess(min(seconds() for _ in range(5)), 0.3)


class Shipped(Repository):
    """The program in dist: when it is taken, and when it is told why not."""

    def setUp(self):
        super().setUp()
        self.write(".ci/checks.py", "")
        self.call(".ci/run")
        self.assertEqual(self.call("tools/ship.sh"), (0, b"", b""))
        self.forget()
        self.asked()
        self.bare = f"{os.path.dirname(self.room)}/bare"
        os.mkdir(self.bare)
        for name in ("bash", *COREUTILS):
            os.symlink(shutil.which(name), f"{self.bare}/{name}")

    def taken(self, due="one", **env):
        """The program in dist, or one that was built here, is run, by bash and the coreutils; nothing is said and nothing is built."""
        for path in (self.bare, self.env["PATH"]):
            self.assertEqual(self.hull("src", PATH=path, **env), (0, f"{due}\n".encode(), b""))
        self.assertEqual(self.asked(), [])

    def refused(self, why, is_told=True, due="one"):
        """Without a kit one line says why; with one that is told, where it is to be, and another program is built."""
        status, output, said = self.hull("src", PATH=WITHOUT_RT["PATH"])
        self.assertEqual((status, output), (127, b""))
        line = rf"hull: {why}, and rt, with whose kit it is proved and built, isn't on the path\n"
        self.assertRegex(said.decode(), rf"\A{line}\Z")
        status, output, said = self.hull("src")
        self.assertEqual((status, output), (0, f"{due}\n".encode()))
        lines = said.decode().splitlines()
        if is_told:
            self.assertRegex(lines.pop(0), f"^hull: {why}: it isn't run, and another is built from the sources$")
        self.assertRegex(lines[0], "^hull: proving the 3 crates")
        self.assertEqual(self.asked(), BUILT)
        self.taken(due)
        self.forget()

    def put(self, text):
        """Another program in dist, with a text that is right for it."""
        self.write("dist/linux-x86_64/hull", text)
        lines = self.read("dist/linux-x86_64/hull.txt").splitlines()
        lines[3] = f"program {hashlib.sha256(text.encode()).hexdigest()}"
        above = "".join(f"{it}\n" for it in lines[:-1])
        self.write("dist/linux-x86_64/hull.txt", f"{above}text {hashlib.sha256(above.encode()).hexdigest()}\n")

    def test_it_is_taken_by_bash_and_coreutils_alone(self):
        self.taken()
        shutil.rmtree(self.out)
        self.taken()

    def test_times_and_copies_and_the_launcher_change_nothing(self):
        self.taken()
        for at, folders, files in os.walk(self.room):
            for name in (*folders, *files):
                os.utime(f"{at}/{name}", (2**31, 2**31))
        self.taken()
        for name in ("hull", "tools/build.sh", "tools/made_of.sh", "tools/ship.sh", "crates.txt"):
            self.write(name, self.read(name) + "# changed\n")
        self.write("crates/for_tests/src/lib.rt", "two\n")
        self.taken()
        subprocess.run(["cp", "-r", self.room, f"{self.room}/../copy"], check=True)
        self.room = f"{os.path.dirname(self.room)}/copy"
        self.taken()

    @unittest.skipIf(os.geteuid() != 0, "only root can be another user")
    def test_another_user_in_a_folder_that_nobody_may_write(self):
        subprocess.run(["chmod", "-R", "a-w,a+rX", self.room], check=True)
        before = subprocess.run(["find", self.room, "-ls"], capture_output=True, check=True).stdout
        for path in (self.bare, self.env["PATH"]):
            env = {"PATH": path}
            ended = run(["src"], program=f"{self.room}/hull", folder="/", env=env, **NOBODY)
            self.assertEqual(ended, (0, b"one\n", b""))
        self.assertEqual(subprocess.run(["find", self.room, "-ls"], capture_output=True, check=True).stdout, before)

    def test_a_changed_source(self):
        why = "the program in dist is of other sources than are there"
        for name, text, due in (
            ("crates/low/src/lib.rt", "two\n", "two"),
            ("crates/high/proofs/Lib.antt", "", "one"),
            ("crates.txt", self.read("crates.txt").replace("may_wait=3", "may_wait=4"), "one"),
        ):
            self.taken()
            was = self.read(name) if os.path.exists(f"{self.room}/{name}") else None
            stamp = os.stat(f"{self.room}/crates/low/src/lib.rt")
            self.write(name, text)
            os.utime(f"{self.room}/{name}", ns=(stamp.st_atime_ns, stamp.st_mtime_ns))
            self.refused(why, is_told=False, due=due)
            if was is None:
                os.remove(f"{self.room}/{name}")
            else:
                self.write(name, was)
        # (what was built of other sources doesn't stand in its way)
        self.write("crates/low/src/lib.rt", "two\n")
        self.assertEqual(self.hull("src")[:2], (0, b"two\n"))
        self.asked()
        self.write("crates/low/src/lib.rt", "one\n")
        self.taken()

    def test_a_program_that_was_changed(self):
        self.taken()
        with open(self.shipped, "rb") as file:
            whole = file.read()
        for other in (b"", whole[:-1], whole.replace(b"one", b"two"), b"#!/bin/sh\necho otherwise\n"):
            with open(self.shipped, "wb") as file:
                file.write(other)
            self.refused(r"/.*/dist/linux-x86_64/hull isn't the program that was put there")
        os.remove(self.shipped)
        self.refused(r"/.*/dist/linux-x86_64/hull isn't the program that was put there")

    def test_a_text_that_was_changed(self):
        self.taken()
        text = self.read("dist/linux-x86_64/hull.txt")
        lines = text.splitlines(True)
        others = ["", "\n", text[:-2], text + "more\n", *(text.replace(it, "") for it in lines)]
        others += [text.replace(it, it.replace(it[-2], "0" if it[-2] != "0" else "1")) for it in lines]
        for other in others:
            self.write("dist/linux-x86_64/hull.txt", other)
            self.refused(r"/.*/dist/linux-x86_64/hull\.txt was changed, or isn't whole")
        os.remove(f"{self.shipped}.txt")
        self.refused(r"/.*/dist/linux-x86_64/hull\.txt was changed, or isn't whole")

    def test_another_machine_or_an_older_c_library(self):
        why = r"/.*/dist/linux-x86_64/hull doesn't run here: it needs Linux on x86-64-v2 with glibc 2\.34 or later, and .*"
        missing = (
            "#!/bin/sh\necho \"$0: /lib/libc.so.6: version 'GLIBC_2.99' not found (required by $0)\" >&2\nexit 1\n"
        )
        for other in ("\x7fELF another machine's", missing, "#!/bin/sh\nkill -ILL $$\n"):
            self.put(other)
            os.chmod(self.shipped, 0o755)
            self.refused(why)
        self.put("#!/bin/sh\necho fault 1 words 1 0\n")
        os.chmod(self.shipped, 0o644)
        self.refused(why)

    def test_a_program_that_was_built_here_goes_first(self):
        self.assertEqual(self.hull("prove")[:2], (0, b"the same program\n"))
        self.asked()
        self.write("dist/linux-x86_64/hull", "other")
        self.taken()

    def test_the_program_that_the_checks_take(self):
        self.assertEqual(self.call("tools/program.sh"), (0, f"{self.shipped}\n".encode(), b""))
        self.assertEqual(self.hull("prove")[0], 0)
        self.asked()
        self.assertEqual(self.call("tools/program.sh"), (0, f"{self.program}\n".encode(), b""))
        self.write("crates/low/src/lib.rt", "two\n")
        said = b"program.sh: the program in dist is of other sources than are there\n"
        self.assertEqual(self.call("tools/program.sh"), (1, b"", said))
        self.assertEqual(self.asked(), [])

    def said_at_a_terminal(self, **how):
        """What a call says on standard error, which is a terminal."""
        ours, theirs = pty.openpty()
        try:
            ended = run(["src"], program=f"{self.room}/hull", env={"PATH": self.bare}, stderr=theirs, **how)
            self.assertEqual(ended[:2], (0, b"one\n"))
            os.set_blocking(ours, False)
            try:
                return os.read(ours, 1000).decode()
            except BlockingIOError:
                return ""
        finally:
            os.close(ours)
            os.close(theirs)

    def test_at_a_terminal_it_says_once_which_program_it_runs(self):
        self.taken()
        if os.geteuid() == 0:
            self.assertEqual(self.said_at_a_terminal(**NOBODY), "")
        self.assertEqual(
            self.said_at_a_terminal(),
            "hull: this is dist/linux-x86_64/hull, whose sources are those here; ./hull prove proves and builds it from them\r\n",
        )
        self.assertEqual(self.said_at_a_terminal(), "")

    def test_prove_says_whether_it_is_the_same_program(self):
        status, output, said = self.hull("prove")
        self.assertEqual((status, output), (0, b"the same program\n"))
        self.assertEqual((self.asked(), said.decode().splitlines()[-1]), (BUILT, "hull: the program is built"))
        # (what was proved is kept, but for who asks)
        for words, due in (([], []), (["--anew"], BUILT)):
            self.assertEqual(self.hull("prove", *words)[:2], (0, b"the same program\n"))
            self.assertEqual(self.asked(), due)
        for text in ("another program", self.read("dist/linux-x86_64/hull").replace("one", "two")):
            self.put(text)
            self.assertEqual(self.hull("prove")[:2], (1, b"another one\n"))
        self.write("crates/low/src/lib.rt", "two\n")
        self.assertEqual(self.hull("prove")[:2], (0, b"the same program\n"))

    def test_prove_where_it_cannot_tell(self):
        for words in (["x"], ["--anew", "x"]):
            self.assertEqual(self.hull("prove", *words), (127, b"", b"hull: the words are: ./hull prove [--anew]\n"))
        why = b"hull: the program has to be built, and rt, with whose kit it is proved and built, isn't on the path\n"
        self.assertEqual(self.hull("prove", PATH=WITHOUT_RT["PATH"]), (127, b"", why))
        status, output, said = self.hull("prove", FAILS="high")
        self.assertEqual((status, output), (127, b""))
        self.assertIn(b"no program: high isn't proved", said)
        shutil.rmtree(f"{self.room}/dist")
        self.assertEqual(self.hull("prove")[:2], (127, b""))


class Gate(Repository):
    """`.ci/run` notes what the gate's program was made of, and holds dist to it."""

    def setUp(self):
        super().setUp()
        self.write(".ci/checks.py", "print('the checks')\n")

    def gate(self, **env):
        """Status and standard output of `.ci/run`, and what it says of dist."""
        status, output, said = self.call(".ci/run", **env)
        return status, output.decode().splitlines()[-1:], said.decode()

    def gate_and_ship(self):
        self.gate()
        self.assertEqual(self.call("tools/ship.sh"), (0, b"", b""))
        self.assertEqual(self.gate(), (0, ["the checks"], ""))
        self.asked()

    def test_its_program_is_taken(self):
        self.gate_and_ship()
        for folder in (f"{self.room}/dist", self.out):
            self.assertEqual(self.hull("src"), (0, b"one\n", b""))
            shutil.rmtree(folder)
        self.assertEqual(self.asked(), [])

    def test_dist_has_to_hold_it_and_one_command_puts_it_there(self):
        said = "ship.sh: dist doesn't hold the program of these sources: run tools/ship.sh, and commit dist\n"
        refused = (1, ["0 passed, 1 failed"], said)
        self.assertEqual(self.gate(), refused)
        self.gate_and_ship()
        for name, other in (("hull", "other"), ("hull.txt", "other"), ("hull", None), ("hull.txt", None)):
            if other is None:
                os.remove(f"{self.room}/dist/linux-x86_64/{name}")
            else:
                self.write(f"dist/linux-x86_64/{name}", other)
            self.assertEqual(self.gate(), refused)
            self.gate_and_ship()
        self.write("crates/low/src/lib.rt", "two\n")
        self.assertEqual(self.gate(), refused)
        self.gate_and_ship()
        # (a source may change where the program doesn't: its text does)
        self.write("crates/high/proofs/Lib.antt", "")
        self.assertEqual(self.gate(), refused)
        self.gate_and_ship()
        self.write("CHANGELOG.md", "## 1.2.4\n")
        self.assertEqual(self.gate(), refused)

    def test_another_kit_confirms_dist_where_it_builds_the_same_bytes(self):
        self.gate_and_ship()
        self.write("../a kit/KIT-ID", "another kit\n")
        status, output, _ = self.call(".ci/run")
        told = f"ship.sh: dist was made by '{KIT}', and 'another kit' builds the same bytes"
        self.assertEqual((status, output.decode().splitlines()[-2:]), (0, [told, "the checks"]))
        self.assertIn(b"names another kit than the program's", self.call("tools/ship.sh")[2])
        self.write("dist/linux-x86_64/hull", "other")
        self.assertEqual(self.gate()[0], 1)

    def test_ship_takes_a_program_of_what_is_there_alone(self):
        said = self.call("tools/ship.sh")
        self.assertEqual(said[:2], (1, b""))
        self.assertRegex(said[2].decode(), r"\Aship\.sh: .* isn't made of the files that are: \.ci/run builds it\n\Z")
        self.gate()
        self.write("crates/low/src/lib.rt", "two\n")
        self.assertEqual(self.call("tools/ship.sh"), said)
        self.write("crates/low/src/lib.rt", "one\n")
        self.assertEqual(self.call("tools/ship.sh", "x"), (1, b"", b"ship.sh: usage: tools/ship.sh [--check]\n"))
        self.write("README.md", "Proved with `rattle-kit-14` (`rt version`).\n")
        self.assertIn(b"names another kit than the program's", self.call("tools/ship.sh")[2])
        self.assertFalse(os.path.exists(f"{self.room}/dist"))

    def test_what_was_edited_meanwhile_is_newer(self):
        edit = "echo {} > crates/low/src/lib.rt; touch -d 2020-01-01 crates/low/src/lib.rt"
        for change, due in (
            (edit.format("two"), "two"),
            (f"{edit.format('three')}; {edit.format('two')}", "two"),
            ("rm crates/high/src/lib.rt; echo one > crates/high/src/lib.rt", "two"),
        ):
            status, last, said = self.gate(WHILE=change)
            self.assertEqual((status, last), (1, ["0 passed, 1 failed"]))
            self.assertIn("files changed while the gate ran", said)
            self.built_anew(due)

    def test_a_gate_that_refuses_ends_with_its_status(self):
        self.assertEqual(self.gate(CI_STATUS="3")[:2], (3, ["3 passed, 0 failed"]))

    def gate_alone(self, **env):
        self.assertEqual(self.call("rt", "ci", **env)[0], 0)
        if subprocess.run(["stat", "-c", "%W", self.out], capture_output=True, check=True).stdout == b"0\n":
            self.skipTest("the disk doesn't keep when a file was made")
        self.asked()

    def built_anew(self, due):
        status, output, said = self.hull("src")
        self.assertEqual((status, output), (0, f"{due}\n".encode()))
        self.assertIn(b"the program is built", said)

    def test_a_program_that_the_gate_alone_has_built_is_taken_until_something_changes(self):
        without_kit = {**self.env, "PATH": WITHOUT_RT["PATH"]}
        self.gate_alone()
        for env in (without_kit, self.env, without_kit):
            self.assertEqual(run(["src"], program=f"{self.room}/hull", env=env), (0, b"one\n", b""))
        self.write("crates/low/src/lib.rt", "two\n")
        os.utime(f"{self.room}/crates/low/src/lib.rt", (10**9, 10**9))
        self.assertEqual(self.hull("src")[:2], (0, b"two\n"))
        self.assertEqual(self.asked(), BUILT)

    def test_what_was_edited_while_the_gate_alone_ran_is_newer(self):
        edit = "echo two > crates/low/src/lib.rt"
        for change in (edit, f"{edit}; touch -d 2020-01-01 crates/low/src/lib.rt", f"rm crates/low/src/lib.rt; {edit}"):
            self.forget()
            self.write("crates/low/src/lib.rt", "one\n")
            self.gate_alone(WHILE=change)
            self.built_anew("two")

    def test_a_program_that_is_older_than_the_folders_of_results(self):
        self.gate_alone()
        # (as by a build that fails, once the program was put there by other hands)
        for name in ("low", "high"):
            shutil.rmtree(f"{self.room}/crates/{name}/out")
            os.makedirs(f"{self.room}/crates/{name}/out")
        self.built_anew("one")

    def test_a_program_of_the_gate_alone_that_is_damaged(self):
        for damaged in (b"", b"\x7fELF\0", b"#!/bin/sh\necho otherwise\n"):
            self.gate_alone()
            with open(self.program, "wb") as file:
                file.write(damaged)
            self.built_anew("one")


class Failing(Repository):
    def refused(self, *words, **env):
        """The one line that a call ends with, in 127."""
        status, output, said = self.hull(*words, **env)
        self.assertEqual((status, output), (127, b""))
        return said.decode().splitlines()[-1]

    def test_what_was_proved_with_another_kit_is_proved_again(self):
        self.hull("check", FAILS="compile")
        self.assertEqual(self.asked(), BUILT)
        self.write("../a kit/KIT-ID", "another kit\n")
        self.hull("check")
        self.assertEqual(self.asked(), BUILT)

    def test_what_was_proved_before_a_run_was_ended_is_not_proved_again(self):
        self.hull("check", FAILS="high")
        self.assertEqual(self.asked(), BUILT[:2])
        self.assertIn(b"1 of the 3 crates were proved before on this machine, and rt kept that", self.hull("check")[2])
        self.assertEqual(self.asked(), BUILT[1:])

    def test_a_crate_that_fails_is_named_in_one_clear_line(self):
        self.assertRegex(
            self.refused("check", FAILS="high"),
            r"^hull: no program: high isn't proved; .*/crates/hull_cli/out/build\.log says why$",
        )
        self.assertIn("rt: high NOT PROVED\n", self.read("crates/hull_cli/out/build.log"))

    def test_a_program_that_does_not_pass_or_run_is_not_taken(self):
        said = self.refused("check", CI_STATUS="1")
        self.assertTrue(said.endswith("crates/hull_cli/out/build.log says why"))
        said = self.refused("check", WHILE="text=\\'")
        self.assertRegex(said, "that which was built doesn't run; .*/build.log says why$")
        self.assertFalse(os.path.exists(self.program))

    def test_without_rt_or_with_a_broken_one_it_says_so(self):
        status, output, said = run(["check"], program=f"{self.room}/hull", env=WITHOUT_RT)
        self.assertEqual((status, output, said.count(b"\n")), (127, b"", 1))
        self.assertIn(b"rt, with whose kit it is proved and built, isn't on the path", said)
        self.write("../a kit/bin/rt", "#!/bin/sh\nexit 1\n")
        self.assertIn("the kit isn't there behind it", self.refused("check"))

    def test_a_tool_that_is_needed_and_missing_is_named(self):
        tools = f"{self.room}/../tools"
        os.mkdir(tools)
        for folder in ("/usr/bin", "/bin"):
            for name in os.listdir(folder):
                if not os.path.lexists(f"{tools}/{name}"):
                    os.symlink(f"{folder}/{name}", f"{tools}/{name}")
        path = f"{self.kit}/bin:{tools}"
        for name in NEEDED:
            os.rename(f"{tools}/{name}", f"{tools}/gone")
            self.assertIn(f"{name}, which the build needs, isn't on the path", self.refused("check", PATH=path))
            os.rename(f"{tools}/gone", f"{tools}/{name}")
        self.assertEqual(self.asked(), [])

    def test_another_shell_says_that_it_needs_bash(self):
        dash = shutil.which("dash") or self.skipTest("there is no other shell")
        ended = subprocess.run([dash, "hull", "check"], cwd=self.room, env=self.env, capture_output=True, timeout=60)
        self.assertEqual((ended.returncode, ended.stderr), (127, b"hull: this needs bash 5.1 or later\n"))

    def test_a_full_disk_is_told_as_such(self):
        self.assertIn("no program: the disk is full that ", self.refused("check", FAILS="full"))

    def test_a_disk_that_is_full(self):
        self.write(
            "with_little_room",
            '#!/bin/sh\nmount -t tmpfs -o size=$1 tmpfs crates/hull_cli/out && shift && exec ./hull "$@"\n',
        )
        os.makedirs(self.out)
        own = ["unshare", "-m", "sh", "with_little_room"]
        try:
            tried = subprocess.run([*own, "1m", "src"], cwd=self.room, env=self.env, capture_output=True, timeout=120)
        except OSError:
            self.skipTest("there is no unshare")
        if tried.returncode:
            self.skipTest(f"no disk can be mounted here: {tried.stderr[-100:]}")
        for size in range(4, 60, 4):
            ended = subprocess.run(
                [*own, f"{size}k", "src"], cwd=self.room, env=self.env, capture_output=True, timeout=120
            )
            last = ended.stderr.decode().splitlines()[-1]
            if ended.returncode == 0:
                self.assertEqual(ended.stdout, b"one\n")
            else:
                self.assertEqual(ended.returncode, 127)
                self.assertRegex(last, "the disk is full|No space left on device")

    def where_none_may_run(self):
        """What a call says where no program may run on the disk of what was built, which is copied there."""
        text = "#!/bin/sh\nmkdir -p built\nmount -t tmpfs -o noexec tmpfs crates/hull_cli/out && cp -a built/. crates/hull_cli/out && exec ./hull src\n"
        self.write("with_no_programs", text)
        ended = subprocess.run(
            ["unshare", "-m", "sh", "with_no_programs"], cwd=self.room, env=self.env, capture_output=True, timeout=120
        )
        if b"hull: " not in ended.stderr:
            self.skipTest(f"no disk can be mounted here: {ended.stderr[-100:]}")
        self.assertEqual((ended.returncode, ended.stdout), (127, b""))
        return ended.stderr.decode()

    def test_a_disk_on_which_no_program_may_run(self):
        os.makedirs(self.out)
        said = self.where_none_may_run()
        self.assertRegex(said, r"\Ahull: no program: none may run in .*, as where a disk is mounted with noexec\n\Z")
        self.assertEqual(self.asked(), [])
        self.hull("src")
        shutil.rmtree(f"{self.room}/built")
        shutil.copytree(self.out, f"{self.room}/built")
        self.assertRegex(
            self.where_none_may_run(), r"\Ahull: .*/hull_cli may not be run by this user, or on this disk\n\Z"
        )
        self.assertEqual(self.asked(), BUILT)

    def test_another_kit_than_the_readmes_is_told(self):
        self.assertNotIn(b"README", self.hull("check")[2])
        shutil.rmtree(self.out)
        self.write("../a kit/KIT-ID", "rattle-kit-14 logic 4\n")
        status, _, said = self.hull("check")
        self.assertEqual(status, 0)
        line = f"hull: README.md names the kit '{KIT}', and rt is of 'rattle-kit-14 logic 4': proofs may fail with it"
        self.assertEqual(said.decode().splitlines()[0], line)

    @unittest.skipIf(os.geteuid() != 0, "only root can be another user")
    def test_a_folder_that_cannot_be_written(self):
        ended = run(["check"], program=f"{self.room}/hull", env=self.env, **NOBODY)
        self.assertEqual(ended[:2], (127, b""))
        self.assertRegex(
            ended[2].decode(), r"\Ahull: cannot write .*, so the program cannot be built: Permission denied\n\Z"
        )

    @unittest.skipIf(os.geteuid() != 0, "only root can be another user")
    def test_a_program_that_was_built_for_another_alone(self):
        self.assertEqual(
            run(["check"], program=f"{self.room}/hull", env=self.env, preexec_fn=lambda: os.umask(0o077))[0], 0
        )
        ended = run(["check"], program=f"{self.room}/hull", env=self.env, **NOBODY)
        self.assertEqual(ended[:2], (127, b""))
        self.assertRegex(ended[2].decode(), r"\Ahull: .* may not be read by this user, .*\n\Z")


class Home(Repository):
    def test_a_copy_elsewhere_writes_nothing(self):
        elsewhere = f"{self.room}/../elsewhere"
        os.mkdir(elsewhere)
        for make in (shutil.copy, os.link):
            make(f"{self.room}/hull", f"{elsewhere}/hull")
            status, output, said = run(["check"], program=f"{elsewhere}/hull", env=self.env)
            self.assertEqual((status, output, said.count(b"\n")), (127, b"", 1))
            self.assertIn(b"has neither crates.txt nor VERSION", said)
            self.assertEqual(os.listdir(elsewhere), ["hull"])
            os.remove(f"{elsewhere}/hull")
        self.assertEqual(self.asked(), [])

    def test_links_and_odd_names(self):
        os.symlink(f"{self.room}/hull", f"{self.room}/../link")
        self.assertEqual(run(["src"], program=f"{self.room}/../link", env=self.env)[:2], (0, b"one\n"))
        for name in ("a b", "-d", "line\nfeed", "ends in one\n", "$(echo) `echo` \"'"):
            odd = f"{os.path.dirname(self.room)}/{name}"
            os.rename(self.room, odd)
            self.room = odd
            for words in ([f"{odd}/hull"], ["bash", "--", "./hull"], ["bash", "--", f"{name}/hull"]):
                folder = odd if words[-1] == "./hull" else os.path.dirname(odd)
                ended = subprocess.run([*words, "src"], cwd=folder, env=self.env, capture_output=True, timeout=120)
                self.assertEqual((ended.returncode, ended.stdout), (0, b"one\n"), (name, words, ended.stderr))
        self.assertEqual(self.asked(), BUILT)

    def test_a_script_that_has_no_home(self):
        ended = subprocess.run(
            f"bash -s check < '{self.room}/hull'", shell=True, cwd="/", env=self.env, capture_output=True, timeout=60
        )
        self.assertEqual((ended.returncode, ended.stdout, ended.stderr.count(b"\n")), (127, b"", 1))

    def test_the_version_names_the_commit_of_its_own_repository(self):
        env = {**WITHOUT_RT, "GIT_CONFIG_GLOBAL": "/dev/null", "LC_ALL": "C"}
        who = ["-c", "user.name=a", "-c", "user.email=a@b"]

        def git(folder, *words):
            return subprocess.run(["git", *words], cwd=folder, env=env, check=True, capture_output=True).stdout

        other = os.path.dirname(self.room)
        git(other, "init", "-q")
        git(other, *who, "commit", "-q", "--allow-empty", "-m", "other")
        names = {"GIT_DIR": f"{other}/.git", "GIT_WORK_TREE": other, "GIT_INDEX_FILE": f"{other}/index"}

        def commit():
            told = [self.hull("version", **more)[1].decode() for more in ({}, names)]
            self.assertEqual(told[0], told[1])
            return told[0].splitlines()[-1]

        self.assertEqual(commit(), "commit unknown")
        os.rmdir(f"{self.room}/.git")
        git(self.room, "init", "-q")
        git(self.room, "add", "-A")
        git(self.room, *who, "commit", "-q", "-m", "own")
        own = git(self.room, "rev-parse", "HEAD").decode().strip()
        self.assertEqual(commit(), f"commit {own}")
        self.write("README.md", "changed\n")
        self.assertEqual(commit(), f"commit {own}, changed")


class AtOnce(Repository):
    def test_two_at_once_build_once(self):
        both = [self.begin("check") for _ in range(2)]
        self.assertEqual([self.ended(it)[:2] for it in both], [(0, b"given check\n")] * 2)
        self.assertEqual(self.asked(), BUILT)

    def test_who_waits_for_a_build_that_fails_does_not_repeat_it(self):
        first = self.hold("low", "check", FAILS="high")
        others = [self.begin("check", FAILS="high") for _ in range(3)]
        for other in others:
            self.assertEqual(other.stderr.readline(), b"hull: waiting for another hull that builds the program\n")
        self.go_on()
        ends = [self.ended(it) for it in (first, *others)]
        self.assertEqual([it[:2] for it in ends], [(127, b"")] * 4)
        last = {it[2].splitlines()[-1] for it in ends}
        self.assertRegex(last.pop(), "^hull: no program: high isn't proved; ")
        self.assertEqual((last, self.asked()), (set(), BUILT[:2]))
        # (who comes later tries anew)
        self.assertEqual(self.hull("check")[0], 0)

    def test_who_waits_for_a_build_that_was_ended_takes_over(self):
        first = self.hold("low", "check")
        other = self.begin("src")
        other.stderr.readline()
        first.terminate()
        self.assertEqual(self.ended(first)[0], 143)
        self.go_on()
        self.assertEqual(self.ended(other)[:2], (0, b"one\n"))

    def test_one_waits_whatever_is_replaced_meanwhile(self):
        first = self.hold("low", "src")
        os.rename(f"{self.room}/crates.txt", f"{self.room}/old")
        self.write("crates.txt", self.read("old"))
        self.write("crates/low/src/lib.rt", "two\n")
        other = self.begin("src")
        self.assertEqual(other.stderr.readline(), b"hull: waiting for another hull that builds the program\n")
        self.assertEqual(self.asked(), BUILT[:1])
        self.go_on()
        self.assertEqual(self.ended(first)[:2], (0, b"one\n"))
        self.assertEqual(self.ended(other)[:2], (0, b"two\n"))

    def test_only_who_may_write_can_hold_the_lock(self):
        self.hull("check")
        lock = f"{self.out}/lock"
        self.assertEqual(stat.S_IMODE(os.stat(lock).st_mode), 0o600)
        os.chmod(self.out, 0o775)
        os.remove(self.program)
        self.hull("check")
        self.assertEqual(stat.S_IMODE(os.stat(lock).st_mode), 0o660)
        if os.geteuid() == 0:
            self.assertNotEqual(run([lock, "true"], program="flock", **NOBODY)[0], 0)

    def test_a_signal_ends_all_with_its_status(self):
        for crate in ("low", "hull_cli"):
            for number, due in ((signal.SIGTERM, 143), (signal.SIGINT, 130), (signal.SIGHUP, 129)):
                for whom in (os.kill, os.killpg):
                    self.forget()
                    begun = self.hold(crate, "check")
                    whom(begun.pid, number)
                    self.assertEqual(self.ended(begun)[:2], (due, b""))
                    self.check_no_process()
                    self.go_on()
                    os.remove(f"{self.env['ASKED']}.held")
        self.assertEqual(self.hull("src")[:2], (0, b"one\n"))

    def test_after_a_launcher_was_killed_the_next_waits_for_what_it_left(self):
        begun = self.hold("low", "check")
        begun.kill()
        begun.wait()
        other = self.begin("src")
        self.assertEqual(other.stderr.readline(), b"hull: waiting for another hull that builds the program\n")
        self.go_on()
        self.assertEqual(self.ended(other)[:2], (0, b"one\n"))
        self.assertEqual(self.asked(), BUILT)
        begun.stdout.close()
        begun.stderr.close()


class Told(unittest.TestCase):
    """What the launcher says on standard error; standard output and the status are the program's."""

    def setUp(self):
        self.room = tempfile.mkdtemp(prefix="hull-told-")
        self.addCleanup(shutil.rmtree, self.room)

    def called(self, words, is_terminal=False, **env):
        """What a call says on standard error; the rest has to be as the program has it."""
        ours, theirs = pty.openpty()
        how = {"folder": self.room, "env": {**WITHOUT_RT, **env}}
        try:
            told = run(words, program=LAUNCHER, **how, **({"stderr": theirs} if is_terminal else {}))
            self.assertEqual(told[:2], run(words, folder=self.room)[:2])
            os.set_blocking(ours, False)
            return os.read(ours, 10000) if is_terminal else told[2]
        except BlockingIOError:
            return b""
        finally:
            os.close(ours)
            os.close(theirs)


class Searching(Told):
    """That a search goes on is said at a terminal alone."""

    said = b"hull: searching: about a second for a day of 150 units, up to a minute for a week\r\n"

    def setUp(self):
        super().setUp()
        files = [f"--{it}={EXAMPLES}/usual/{it}.json" for it in ("case", "schedule")]
        self.searched, self.checked = ["convex", *files], ["check", *files]
        # (the first call at a terminal may say which program it runs)
        self.called(self.checked, is_terminal=True)

    def test_it_is_said_in_one_line_before_the_text(self):
        self.assertEqual(self.called(self.searched, is_terminal=True), self.said)
        self.assertEqual(self.called([*self.searched, "--rounds=1"], is_terminal=True, HULL_EXPLAIN="1"), self.said)

    def test_nothing_is_said_in_a_log_or_where_it_is_not_wanted(self):
        for explain in ({}, {"HULL_EXPLAIN": "1"}, {"HULL_EXPLAIN": "0"}):
            self.assertEqual(self.called(self.searched, **explain), b"")
        self.assertEqual(self.called(self.searched, is_terminal=True, HULL_EXPLAIN="0"), b"")

    def test_nothing_is_said_of_another_command(self):
        self.assertEqual(self.called(self.checked, is_terminal=True), b"")

    def test_a_search_that_is_refused_is_explained_behind_it(self):
        said = self.called(self.searched[:2], is_terminal=True)
        self.assertTrue(said.startswith(self.said) and said.count(b"\n") == 2, said)
        self.assertNotIn(self.said, self.called(["convex"], is_terminal=True))


class Explaining(Told):
    """A fault in words."""

    def setUp(self):
        super().setUp()
        with open(f"{EXAMPLES}/first/case.json", encoding="utf-8") as file:
            text = file.read()
        with open(f"{self.room}/case.json", "w", encoding="utf-8") as file:
            file.write(text.replace('"time_periods"', '"time_period"'))
        first = (f"{EXAMPLES}/first/{it}.json" for it in ("case", "schedule"))
        self.right = ["check", *(word for pair in zip(("--case", "--schedule"), first) for word in pair)]
        self.refused = ["check", "--case", "case.json", f"--schedule={EXAMPLES}/first/schedule.json"]
        self.said = b"case.json: time_periods: it isn't there, and it has to be. Due: the number of periods, 1 to 168."

    def test_it_is_said_at_a_terminal_or_where_it_is_wanted(self):
        self.called(self.refused, is_terminal=True)
        self.assertEqual(self.called(self.refused, is_terminal=True), self.said + b"\r\n")
        self.assertEqual(self.called(self.refused, HULL_EXPLAIN="1"), self.said + b"\n")
        self.assertEqual(self.called(self.refused), b"")
        for how in ({"is_terminal": True}, {}):
            self.assertEqual(self.called(self.refused, HULL_EXPLAIN="0", **how), b"")
            self.assertEqual(self.called(self.right, **how), b"")
        self.assertEqual(self.called(self.right, HULL_EXPLAIN="1"), b"")

    def test_faults_of_each_status(self):
        report = f"{EXAMPLES}/first/price.output"
        for words, due in (
            (["prise"], rb"the first word is no command: .* There stands 'prise'\.\n"),
            (
                self.refused[:2] + ["none.json"] + self.refused[3:],
                rb"none\.json can't be read: No such file or directory\.\n",
            ),
            (["check", "--case", self.right[2], "--schedule", self.right[2]], rb".*case\.json: .*\n"),
            (["audit", *self.right[1:], "--report", self.right[2]], rb".*line 1 .*\n"),
            (["audit", *self.right[1:], "--report", report, "--workers", "0"], rb".*There stands '--workers 0'\.\n"),
            (["settle", *self.right[1:], "--prices", self.right[2]], rb".*case\.json: .*\n"),
        ):
            self.assertRegex(self.called(words, HULL_EXPLAIN="1"), rb"\A(" + due + rb")\Z")

    def test_what_cannot_be_read_twice_is_not_explained(self):
        os.mkfifo(f"{self.room}/pipe")
        for words in (["check", "--case", "pipe", *self.refused[3:]], ["check", "--case=pipe", *self.refused[3:]]):
            command = f"cat case.json > pipe & exec '{LAUNCHER}' {' '.join(words)}"
            env = {**WITHOUT_RT, "HULL_EXPLAIN": "1"}
            told = run(["-c", command], program="bash", folder=self.room, env=env)
            self.assertEqual(told, (*run(self.refused, folder=self.room)[:2], b""))

    def test_without_python_nothing_is_said(self):
        os.mkdir(f"{self.room}/bin")
        for name in ("bash", *COREUTILS):
            os.symlink(shutil.which(name), f"{self.room}/bin/{name}")
        self.assertEqual(self.called(self.refused, HULL_EXPLAIN="1", PATH=f"{self.room}/bin"), b"")

    def test_no_word_and_a_closed_or_full_standard_error(self):
        self.assertEqual(self.called([], HULL_EXPLAIN="1"), b"")
        due = run(self.refused, folder=self.room)[:2]
        for way in ("2>&-", "2>/dev/full"):
            env = {**WITHOUT_RT, "HULL_EXPLAIN": "1"}
            command = ["-c", f"exec '{LAUNCHER}' {' '.join(self.refused)} {way}"]
            self.assertEqual(run(command, program="bash", folder=self.room, env=env)[:2], due)


def is_gone(process, seconds=20):
    """Whether the process, which is nobody's child here, has ended or ends by then."""
    for _ in range(10 * seconds):
        try:
            with open(f"/proc/{process}/stat", encoding="utf-8") as file:
                if file.read().rpartition(")")[2].split()[0] == "Z":
                    return True
        except (FileNotFoundError, ProcessLookupError):
            return True
        time.sleep(0.1)
    return False


class ExplainingAnEnd(Repository):
    def test_a_program_that_ends_by_a_signal_or_cannot_be_run(self):
        self.write("tools/explain.py", "")
        for text, due in (("kill -SEGV $$", -signal.SIGSEGV), ("kill -TERM $$", -signal.SIGTERM), ("exit 9", 9)):
            self.write("VERSION", "hull 1.2.3\n")
            self.write("bin/hull", f"#!/bin/sh\necho begun\n{text}\n")
            os.chmod(f"{self.room}/bin/hull", 0o755)
            self.sums()
            for explain in ("0", "1"):
                status, output, _ = self.hull("check", HULL_EXPLAIN=explain)
                self.assertEqual((status, output), (due, b"begun\n"))
        self.write("bin/hull", "\x7fELF of another machine")
        self.sums()
        for explain in ("0", "1"):
            status, output, said = self.hull("check", HULL_EXPLAIN=explain)
            self.assertEqual((status, output), (127, b""))
            self.assertRegex(
                said.decode().splitlines()[-1],
                r"^hull: .*/bin/hull can't be run: it is damaged, or of another machine$",
            )

    def release(self, text):
        """Makes the folder one of a release, whose program is a script."""
        self.write("tools/explain.py", "")
        self.write("VERSION", "hull 1.2.3\n")
        self.write("bin/hull", f"#!/bin/bash\n{text}\n")
        os.chmod(f"{self.room}/bin/hull", 0o755)
        self.sums()

    def test_the_program_ends_with_its_launcher_in_both_runs(self):
        first = 'if mkdir begun 2>/dev/null; then echo "fault 4 x"; exit 4; fi\n'
        for rest in ("", first):
            self.release(f"{rest}echo $BASHPID >&2\nexec sleep 100")
            for number in (signal.SIGTERM, signal.SIGINT, signal.SIGHUP):
                with self.subTest(number=number, rest=rest):
                    how = {"stdout": subprocess.DEVNULL, "stderr": subprocess.PIPE, "cwd": self.room}
                    command = [f"{self.room}/hull", "check"]
                    with subprocess.Popen(command, env={**WITHOUT_RT, "HULL_EXPLAIN": "1"}, **how) as launcher:
                        program = int(launcher.stderr.readline())
                        launcher.send_signal(number)
                        self.assertEqual(launcher.wait(60), -number)
                        self.assertEqual(launcher.stderr.read(), b"")
                    self.assertTrue(is_gone(program), program)
                shutil.rmtree(f"{self.room}/begun", ignore_errors=True)

    def test_the_program_reads_what_is_given_to_the_launcher(self):
        self.release("cat; exit 3")
        self.write("given", "one\n")
        for way, due in (("<given", b"one\n"), ("</dev/null", b""), ("<&-", b"")):
            command = ["-c", f"HULL_EXPLAIN=1 exec ./hull check {way} 2>/dev/null"]
            self.assertEqual(run(command, program="bash", folder=self.room, env=WITHOUT_RT)[:2], (3, due), way)

    def sums(self):
        if os.path.exists(f"{self.room}/crates.txt"):
            os.remove(f"{self.room}/crates.txt")
        with open(f"{self.room}/bin/hull", "rb") as file:
            self.write("SHA256SUMS", f"{hashlib.sha256(file.read()).hexdigest()}  bin/hull\n")


class BuiltProgram(unittest.TestCase):
    def test_what_the_gate_built_is_taken_without_rt(self):
        words = ["check", *(f"--{it}={EXAMPLES}/first/{it}.json" for it in ("case", "schedule"))]
        text = b"hull-check 1\nperiods 1 thermal 0 renewable 1\ncost 0\nfeasible\n"
        self.assertEqual(run(words, program=LAUNCHER, folder="/", env=WITHOUT_RT), (0, text, b""))

    def test_option_words_are_words(self):
        for word in ("--version", "--Help"):
            self.assertEqual(run([word], program=LAUNCHER, env=WITHOUT_RT), (1, b"fault 1 words 2 1\n", b""))
