"""The real program at its edges: odd files, odd outputs, odd words.

Each run ends by itself with its documented status, prints one fault line (or a front of it) and nothing else, writes
nothing to standard error, and is stopped by no signal.
"""
import json
import os
import shutil
import subprocess
import tempfile
import threading
import unittest

from built import EXAMPLES, PROGRAM, run

LARGEST = 67_108_864
REPORT = b"hull-report 1\n"
NOBODY = {"user": 65534, "group": 65534, "extra_groups": []} if os.geteuid() == 0 else {}


class Edges(unittest.TestCase):
    def setUp(self):
        self.room = tempfile.mkdtemp(prefix="hull-edges-")
        self.addCleanup(shutil.rmtree, self.room)
        os.chmod(self.room, 0o755)
        for name in ("case.json", "schedule.json"):
            shutil.copy(f"{EXAMPLES}/first/{name}", self.room)

    def hull(self, *words, **how):
        return run(words, folder=self.room, **how)

    def price(self, case="case.json", schedule="schedule.json", **how):
        return self.hull("price", "--case", case, "--schedule", schedule, **how)

    def refused(self, line, case="case.json", schedule="schedule.json", **how):
        """The run ends with the line's status and prints the line alone."""
        self.assertEqual(self.price(case, schedule, **how), (int(line.split()[1]), f"{line}\n".encode(), b""))

    def report(self):
        """The right report of the case, as a file."""
        self.write("report.txt", self.price()[1])

    def audited(self, line, report, **how):
        """The audit of such a file ends with the line's status and prints the line alone."""
        words = ["audit", "--case", "case.json", "--schedule", "schedule.json", "--report", report]
        self.assertEqual(self.hull(*words, **how), (int(line.split()[1]), f"{line}\n".encode(), b""))

    def write(self, name, data):
        with open(f"{self.room}/{name}", "wb") as file:
            file.write(data)

    def fed(self, data):
        """A FIFO that a thread fills with the bytes, and then closes."""
        os.mkfifo(f"{self.room}/pipe")

        def feed():
            with open(f"{self.room}/pipe", "wb") as file:
                file.write(data)

        writer = threading.Thread(target=feed, daemon=True)
        writer.start()
        return writer

    def read(self, name):
        with open(f"{self.room}/{name}", "rb") as file:
            return file.read()

    def test_missing_file(self):
        self.refused("fault 2 read case", case="none.json")
        self.refused("fault 2 read schedule", schedule="none.json")

    def test_directory(self):
        self.refused("fault 2 read case", case=".")
        self.refused("fault 2 read schedule", schedule=".")

    def test_report_that_cannot_be_read(self):
        self.audited("fault 2 read report", "none.txt")
        self.audited("fault 2 read report", ".")
        # (the schedule is refused before the report is read)
        shutil.copy(f"{self.room}/case.json", f"{self.room}/schedule.json")
        self.audited("fault 4 schedule 42 kind case unit 0 item 0", "none.txt")

    def settled(self, line, prices, **how):
        """The settlement at such a file of prices ends with the line's status and prints the line alone."""
        words = ["settle", "--case", "case.json", "--schedule", "schedule.json", "--prices", prices]
        self.assertEqual(self.hull(*words, **how), (int(line.split()[1]), f"{line}\n".encode(), b""))

    def prices(self):
        """Prices over the horizon of the case, as the bytes of a file."""
        return json.dumps({"energy": [30] * json.loads(self.read("case.json"))["time_periods"]}).encode()

    def test_prices_that_cannot_be_read(self):
        self.settled("fault 2 read prices", "none.json")
        self.settled("fault 2 read prices", ".")
        self.settled("fault 9 prices 10 at 0", "/dev/null")
        # (the schedule is refused before the prices are read)
        shutil.copy(f"{self.room}/case.json", f"{self.room}/schedule.json")
        self.settled("fault 4 schedule 42 kind case unit 0 item 0", "none.json")

    def test_prices_from_a_fifo_and_into_a_full_output(self):
        writer = self.fed(self.prices())
        words = ["settle", "--case", "case.json", "--schedule", "schedule.json", "--prices"]
        status, output, said = self.hull(*words, "pipe")
        writer.join(10)
        self.assertEqual((status, said), (0, b""))
        self.assertTrue(output.startswith(b"hull-settlement 1\n") and output.endswith(b"\nend\n"))
        self.write("prices.json", self.prices())
        with open("/dev/full", "wb") as full:
            self.assertEqual(self.hull(*words, "prices.json", stdout=full)[::2], (6, b""))
            self.assertEqual(self.hull(*words, "none.json", stdout=full)[::2], (2, b""))

    def test_largest_prices_and_one_byte_more(self):
        prices = self.prices()
        self.write("prices.json", prices)
        self.write("large.json", prices + b" " * (LARGEST - len(prices)))
        words = ["settle", "--case", "case.json", "--schedule", "schedule.json", "--prices"]
        self.assertEqual(self.hull(*words, "large.json"), self.hull(*words, "prices.json"))
        with open(f"{self.room}/large.json", "ab") as file:
            file.write(b" ")
        self.settled("fault 9 prices 32", "large.json")
        self.settled("fault 9 prices 32", "/dev/zero")

    def certified(self, line, mixture, prices="prices.json"):
        """The certificate by such a mixture ends with the line's status and prints the line alone."""
        words = [
            "certify",
            "--case",
            "case.json",
            "--schedule",
            "schedule.json",
            "--prices",
            prices,
            "--mixture",
            mixture,
        ]
        self.assertEqual(self.hull(*words), (int(line.split()[1]), f"{line}\n".encode(), b""))

    def test_mixture_that_cannot_be_read(self):
        self.write("prices.json", self.prices())
        self.certified("fault 2 read mixture", "none.json")
        self.certified("fault 2 read mixture", ".")
        self.certified("fault 10 mixture 10 at 0", "/dev/null")
        self.certified("fault 10 mixture 32", "/dev/zero")
        # (the prices are refused before the mixture is read)
        self.certified("fault 9 prices 10 at 0", "none.json", "/dev/null")

    def test_a_case_without_thermal_units_has_an_empty_mixture(self):
        self.write("prices.json", self.prices())
        writer = self.fed(b'{"weight":1000000000000,"thermal":{}}')
        words = [
            "certify",
            "--case",
            "case.json",
            "--schedule",
            "schedule.json",
            "--prices",
            "prices.json",
            "--mixture",
        ]
        status, output, said = self.hull(*words, "pipe")
        writer.join(10)
        self.assertEqual((status, said), (0, b""))
        self.assertTrue(output.startswith(b"hull-certificate 1\n") and output.endswith(b"\nend\n"))

    def test_report_that_is_no_report(self):
        self.write("empty.txt", b"")
        self.audited("fault 8 report 60 at 1", "empty.txt")
        self.audited("fault 8 report 60 at 1", "case.json")
        self.audited("fault 8 report 60 at 1", "/dev/null")

    def test_report_with_a_digit_changed(self):
        self.report()
        report = self.read("report.txt")
        self.write("report.txt", report.replace(b"payments 0", b"payments 1"))
        self.audited(f"fault 8 report 61 at {report.count(10) - 2}", "report.txt")
        self.write("report.txt", report.replace(b"payments 0", b"payments 00"))
        self.audited(f"fault 8 report 60 at {report.count(10) - 2}", "report.txt")

    def test_report_from_a_fifo(self):
        self.report()
        writer = self.fed(self.read("report.txt"))
        words = ["audit", "--case", "case.json", "--schedule", "schedule.json", "--report", "pipe"]
        self.assertEqual(self.hull(*words), (0, b"hull-audit 1\nproposals 4\nright\n", b""))
        writer.join(10)

    def test_largest_report_and_one_byte_more(self):
        self.report()
        report = self.read("report.txt")
        self.write("large.txt", report + b"\n" * (LARGEST - len(report)))
        self.audited(f"fault 8 report 60 at {report.count(10) + 1}", "large.txt")
        with open(f"{self.room}/large.txt", "ab") as file:
            file.write(b"\n")
        self.audited("fault 8 report 32", "large.txt")
        self.audited("fault 8 report 32", "/dev/zero")

    def test_file_without_permission(self):
        program = f"{self.room}/hull_cli"
        shutil.copy(PROGRAM, program)
        os.chmod(f"{self.room}/case.json", 0)
        words = ["check", "--case", "case.json", "--schedule", "schedule.json"]
        self.assertEqual(run(words, program=program, folder=self.room, **NOBODY), (2, b"fault 2 read case\n", b""))

    def test_fifo_is_read_to_its_end(self):
        writer = self.fed(self.read("case.json"))
        status, output, said = self.price(case="pipe")
        writer.join(10)
        self.assertEqual((status, said), (0, b""))
        self.assertTrue(output.startswith(REPORT) and output.endswith(b"\nend\n"))

    def test_schedule_from_a_fifo(self):
        due = self.price()
        self.assertEqual(due[0], 0)
        writer = self.fed(self.read("schedule.json"))
        self.assertEqual(self.price(schedule="pipe"), due)
        writer.join(10)

    def test_file_that_is_cut_off_while_it_is_read(self):
        writer = self.fed(self.read("case.json")[:100])
        status, output, said = self.price(case="pipe")
        writer.join(10)
        self.assertEqual((status, said), (3, b""))
        self.assertRegex(output, rb"\Afault 3 case 10 at \d+\n\Z")

    def test_file_that_shrinks_while_it_is_read(self):
        self.write("long.json", b" " * (LARGEST - 1) + b"1")
        started = subprocess.Popen(
            [PROGRAM, "check", "--case", "long.json", "--schedule", "schedule.json"],
            cwd=self.room,
            stdout=subprocess.PIPE,
            stderr=subprocess.PIPE,
        )
        os.truncate(f"{self.room}/long.json", 1000)
        output, said = started.communicate(timeout=60)
        self.assertEqual((started.returncode, said), (3, b""))
        self.assertRegex(output, rb"\Afault 3 case (10 at \d+|21 field whole kind case unit 0 item 0)\n\Z")

    def test_output_that_is_full(self):
        with open("/dev/full", "wb") as full:
            self.assertEqual(self.price(stdout=full)[::2], (6, b""))
            # (the status of a refusal stays where its line can't be written)
            self.assertEqual(self.price(case="none.json", stdout=full)[::2], (2, b""))
            self.assertEqual(self.hull("nothing", stdout=full)[::2], (1, b""))
            words = ["audit", "--case", "case.json", "--schedule", "schedule.json", "--report", "report.txt"]
            self.report()
            self.assertEqual(self.hull(*words, stdout=full)[::2], (6, b""))
            self.write("report.txt", b"")
            self.assertEqual(self.hull(*words, stdout=full)[::2], (8, b""))

    def test_output_that_nobody_reads(self):
        reading, writing = os.pipe()
        os.close(reading)
        try:
            self.assertEqual(self.price(stdout=writing)[::2], (6, b""))
        finally:
            os.close(writing)

    def test_output_that_is_closed(self):
        ended = subprocess.run(
            [
                "sh",
                "-c",
                'exec "$0" "$@" >&-',
                PROGRAM,
                "check",
                "--case",
                "case.json",
                "--schedule",
                "schedule.json",
            ],
            cwd=self.room,
            capture_output=True,
            timeout=60,
        )
        self.assertEqual((ended.returncode, ended.stdout, ended.stderr), (6, b"", b""))

    def test_empty_file(self):
        self.write("empty.json", b"")
        self.refused("fault 3 case 10 at 0", case="empty.json")
        self.refused("fault 4 schedule 10 at 0", schedule="empty.json")

    def test_largest_file_and_one_byte_more(self):
        case = self.read("case.json")
        self.write("large.json", case + b" " * (LARGEST - len(case)))
        self.assertEqual(self.price(case="large.json"), self.price())
        with open(f"{self.room}/large.json", "ab") as file:
            file.write(b" ")
        self.refused("fault 3 case 32", case="large.json")
        self.refused("fault 4 schedule 32", schedule="large.json")

    def test_names_that_are_not_utf_8(self):
        # words that are no text can't be held: status 7, and no line
        for words in ([b"price", b"--case", b"\xff", b"--schedule", b"a"], [b"\xfe"], [b"price", b"\xc3("]):
            status, output, said = self.hull(*words)
            self.assertEqual((status, said), (7, b""))
            self.assertIn(output, (b"", b"fault 7 memory\n"))

    def test_ten_thousand_words(self):
        self.assertEqual(self.hull("price", *["word"] * 9_999), (1, b"fault 1 words 8 2\n", b""))
        self.assertEqual(self.hull(*["--case"] * 10_000), (1, b"fault 1 words 2 1\n", b""))
        self.assertEqual(self.hull("try", "7", "--proposals=1", *["8"] * 9_997), (1, b"fault 1 words 8 4\n", b""))

    def test_one_file_as_case_and_schedule(self):
        self.refused("fault 4 schedule 42 kind case unit 0 item 0", schedule="case.json")
        self.refused(
            "fault 3 case 20 field time_periods kind case unit 0 item 0",
            case="schedule.json",
            schedule="schedule.json",
        )

    def test_device_files(self):
        self.refused("fault 3 case 10 at 0", case="/dev/null")
        self.refused("fault 3 case 32", case="/dev/zero")
