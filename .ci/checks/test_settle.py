"""`hull settle` beside a plain program (plain_settle.py): random tiny cases with random prices files, and the same files spoiled.

The text is due to the byte, and so is the fault line of a file that is refused.
"""
import json
import os
import random
import tempfile
import unittest

import plain
import plain_settle
from built import PROGRAM, run

CASES = int(os.environ.get("HULL_PLAIN_CASES", "24"))
SPOILED = 8
PIECES = [
    b"0",
    b"9",
    b"-",
    b"+",
    b".",
    b"e",
    b"E",
    b",",
    b":",
    b"[",
    b"]",
    b"{",
    b"}",
    b'"',
    b" ",
    b"\n",
    b"\t",
    b"\\",
    b"\\u0041",
]
PIECES += [
    b"\\ud800",
    b"\xff",
    b"\xc3\xa9",
    b"\x00",
    b"null",
    b"true",
    b"1e400",
    b"1e401",
    b"0" * 31,
    b"7" * 31,
    b"[" * 33,
    b"energy",
    b"reserve",
]


def draw_number(draw, low, high):
    """A price's text, and now and then an odd one."""
    price = draw.randint(low, high)
    size = draw.choice(["{:.3f}", "{:.4f}", "{:g}", "{:e}"]).format(price / 1000)
    return draw.choice(
        [size] * 12
        + [f"{price}e-3", f"{price}.0E-0003", "-0", "-0.0005", "-0.0006", "10000.0004", "10000.0005", "1e-400"]
    )


def draw_list(draw, low, periods):
    """A list of prices, mostly with one for each period."""
    count = periods + draw.choice([0] * 20 + [-1, 1])
    return "[" + ", ".join(draw_number(draw, low, 60) for _ in range(count)) + "]"


def draw_prices(draw, periods):
    """A prices file, mostly a right one."""
    parts = [f'"energy": {draw_list(draw, -20, periods)}']
    if draw.random() < 0.7:
        parts.append(f'"reserve": {draw_list(draw, 0, periods)}')
    if draw.random() < 0.2:
        parts.append(
            draw.choice(['"reserve": null', '"energy": 1', '"x": [[{}]]', '"energy": [null]', '"en\\u0065rgy": []'])
        )
    draw.shuffle(parts)
    return ("{" + " ,\n".join(parts) + "}").encode()


def spoil(draw, data):
    """The file with a piece put in, left out or replaced."""
    at = draw.randint(0, len(data))
    more = draw.choice([0, 0, 1, 1, 2, len(data)])
    return data[:at] + draw.choice([b"", *PIECES]) + data[at + more :]


class PlainSettle(unittest.TestCase):
    """The plain program itself, at files worked by hand."""

    def test_faults_worked_by_hand(self):
        rows = [
            (b'{"energy":[98,98]}', "25 field energy item 0"),
            (b'{"energy":["98"]}', "21 field energy item 1"),
            (b'{"energy":[10000.0005]}', "24 field energy item 1"),
            (b'{"energy":[1],"reserve":[-0.0006]}', "23 field reserve item 1"),
            (b"[]", "21 field whole item 0"),
            (b"{}", "20 field energy item 0"),
            (b'{"energy":[98}', "10 at 13"),
            (b'{"energy":[98],"energy":[98]}', "13 at 15"),
        ]
        for data, fault in rows:
            with self.assertRaises(plain_settle.PricesFault) as found:
                plain_settle.read_prices(data, 1)
            self.assertEqual(str(found.exception), fault)
        self.assertEqual(
            plain_settle.read_prices(b'{"energy":[10000.0004],"reserve":[-0.0005]}', 1), ([10_000_000], [0])
        )


class Settle(unittest.TestCase):
    def check_file(self, case, folder, data):
        with open(f"{folder}/prices.json", "wb") as file:
            file.write(data)
        words = ["settle", "--case", "case.json", "--schedule", "schedule.json", "--prices", "prices.json"]
        status, output, said = run(words, program=PROGRAM, folder=folder)
        self.assertEqual((status, output.decode(errors="replace"), said), (*plain_settle.due(case, data), b""), data)

    def test_random_cases_and_spoiled_files(self):
        for number in range(CASES):
            draw = random.Random(number)
            case = plain.draw_case(draw)
            with tempfile.TemporaryDirectory(prefix="hull-settle-") as folder, self.subTest(number=number):
                case.write(folder)
                data = draw_prices(draw, case.periods)
                self.check_file(case, folder, data)
                for _ in range(SPOILED):
                    self.check_file(case, folder, spoil(draw, data))

    def test_a_right_file_is_settled_in_every_case(self):
        for number in range(CASES):
            draw = random.Random(f"right {number}")
            case = plain.draw_case(draw)
            prices = {"energy": [draw.randint(-20, 60) / 1000 for _ in range(case.periods)]}
            prices["reserve"] = [draw.randint(0, 30) / 1000 for _ in range(case.periods)]
            with tempfile.TemporaryDirectory(prefix="hull-settle-") as folder, self.subTest(number=number):
                case.write(folder)
                self.check_file(case, folder, json.dumps(prices).encode())


if __name__ == "__main__":
    unittest.main()
