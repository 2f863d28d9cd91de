"""Schedules from elsewhere that are damaged, or made to harm: each is refused in one line."""
import json
import os
import tempfile
import unittest

from tool import EXAMPLES

from hulltools.cases import read_case
from hulltools.errors import HullError
from hulltools.external_schedules import Followed, as_followed, followed_dict, followed_json, read_followed
from hulltools.schedules import read_schedule

HEAD = "unit,period,on,power,reserve\n"
DAMAGED = [
    HEAD + f"G1,1,1,10,{'0' * 140_000}\n",
    *(HEAD + f"G1,1,1,{it},0\n" for it in ("inf", "-inf", "nan", "1e399", "1000001", "x")),
    *(
        HEAD + f"G1,{period},1,10,0\n"
        for period in ("0", "2", "-1", "1.5", "1.0.0", "", "9" * 5000, "0_1", "+1", "\uff11", "\u20031")
    ),
    *(HEAD + f"G1,1,1,{it},0\n" for it in ("1_0", "\uff11\uff10", "\u0661", "infinity", "1\u2003", "0x1", "1 0")),
    HEAD + '"G1,1,1,10,0\n',
    HEAD + 'G1,1,1,"10\n",0\n',
    "unit;period;power\nG1;1;10\n",
    '{"elements":{"generator":[1]}}',
    '{"elements":{"generator":{"G1":{"commitment":{"values":[1]},"pg":{"values":[1e399]}}}}}',
    *('{"%s":%s}' % (group, it) for group in ("thermal", "renewable", "bids") for it in ("[1]", "5", '"x"', "true")),
    *(
        '{"thermal":{"G1":{"on":[1],"power":[%s],"reserve":[0]}}}' % number
        for number in ("1e399", "null", '"1"', "[1]", "1000001")
    ),
    '{"thermal":{"G1":{"on":[1],"power":[10],"reserve":[1e399]}}}',
    '{"Is on":{"G1":[1,1]}}',
    '{"Is on":{"G1":[1]},"Spinning reserve (MW)":{"r1":[1]}}',
    '{"Is on":{"G1":[1]},"Spinning reserve (MW)":{"r1":{"G1":[1e399]}}}',
    "[1]",
    "",
]


class ExternalSchedules(unittest.TestCase):
    def read(self, data: bytes) -> Followed:
        with tempfile.TemporaryDirectory(prefix="hull-external-") as room:
            name = os.path.join(room, "schedule")
            with open(name, "wb") as file:
                file.write(data)
            return read_followed(name, read_case(f"{EXAMPLES}/usual/case.json"))

    def test_what_is_damaged_is_refused_in_one_line(self) -> None:
        for text in DAMAGED:
            with self.subTest(text=text[:80]), self.assertRaises(HullError) as found:
                self.read(text.encode())
            self.assertNotIn("\n", str(found.exception))

    def test_empty_rows_and_columns_of_a_spreadsheet(self) -> None:
        """They are passed over; a cell in a column without a name is most likely what a decimal comma has parted."""
        due = self.read((HEAD + "G1,1,1,10,2\n").encode())
        head = HEAD.strip()
        for text in (f"{head}\nG1,1,1,10,2\n,,,,\n , \n", f"{head},,\nG1,1,1,10,2,,\n", f",{head}\n0,G1,1,1,10,2\n"):
            self.assertEqual(self.read(text.encode()), due, text)
        with self.assertRaises(HullError) as found:
            self.read(f"{head},\nG1,1,1,10,5,2\n".encode())
        why = "line 2: '2' stands in a column without a name. Is a decimal comma in the row?"
        self.assertTrue(found.exception.sentence.endswith(why), found.exception)

    def test_a_byte_order_mark_is_passed_over(self) -> None:
        for text in (HEAD + "G1,1,1,10,2\n", '{"thermal":{"G1":{"on":[1],"power":[10],"reserve":[2]}}}'):
            self.assertEqual(self.read(f"\ufeff{text}".encode()), self.read(text.encode()))

    def test_blanks_around_numbers_are_taken(self) -> None:
        for period in (" 1 ", "1.0", " 1. "):
            found = self.read((HEAD + f"G1,{period}, 1,\t10.5, +2e0 \n").encode())
            self.assertEqual((found.on, found.power, found.reserve), ({"G1": [1.0]}, {"G1": [10.5]}, {"G1": [2.0]}))

    def test_powers_of_renewable_units_and_bids_may_stand_by_period(self) -> None:
        for row in (
            '{"2":0,"1":20}',
            '{"values":[20,0]}',
            '{"values":{"1":20,"2":0}}',
            '{"power":{"1":20,"2":0}}',
            "[20,0]",
        ):
            for group in ("renewable", "bids"):
                found = followed_json(f'{{"{group}":{{"W1":{row}}}}}'.encode(), "plan.json", 2)
                self.assertEqual(found.power, {"W1": [20.0, 0.0]}, (group, row))
                given = {group: {"W1": json.loads(row)}}
                self.assertEqual(followed_dict(given, "powers", 2).power, {"W1": [20.0, 0.0]}, (group, row))
        with self.assertRaisesRegex(HullError, "^plan.json: W1, power: a list of 2 numbers is due$"):
            followed_json(b'{"renewable":{"W1":{"1":20}}}', "plan.json", 2)

    def test_an_on_flag_that_is_far_from_0_and_1_is_refused(self) -> None:
        for text in (HEAD + "G1,1,%s,10,0\n", '{"thermal":{"G1":{"on":[%s],"power":[10],"reserve":[0]}}}'):
            for flag in ("0.6", "0.5", "2", "-1", "0.98", "0.02"):
                with self.assertRaises(HullError) as found:
                    self.read((text % flag).encode())
                due = f'the on flag of unit "G1" in period 1 is {flag}, and 0 or 1 is due'
                self.assertTrue(found.exception.sentence.endswith(due), found.exception)
                self.assertEqual((found.exception.unit, found.exception.period), ("G1", 1))
            for flag in ("0.9999999", "1.005", "-1e-7", "0", "1"):
                self.assertEqual(self.read((text % flag).encode()).on, {"G1": [float(flag)]})

    def test_what_a_solver_leaves_of_a_power_is_no_on_flag(self) -> None:
        """Half a kilowatt is 0 in whole kilowatts, and more isn't."""
        for power, on in (("2e-6", 0.0), ("-1e-5", 0.0), ("0.0005", 0.0), ("0.0006", 1.0), ("8", 1.0)):
            self.assertEqual(self.read(f"unit,period,power\nG1,1,{power}\n".encode()).on, {"G1": [on]}, power)

    def test_a_reserve_below_0_is_refused(self) -> None:
        with self.assertRaises(HullError) as found:
            self.read((HEAD + "G1,1,1,10,-0.002\n").encode())
        due = "reserve -0.002 MW of G1 in period 1: at least 0 is due"
        self.assertTrue(found.exception.sentence.endswith(due), found.exception)
        self.assertEqual((found.exception.unit, found.exception.period), ("G1", 1))
        self.assertEqual(self.read((HEAD + "G1,1,1,10,-1e-9\n").encode()).reserve, {"G1": [-1e-9]})

    def test_reserves_of_several_products_are_refused(self) -> None:
        text = '{"Is on":{"G1":[1]},"Thermal production (MW)":{"G1":[10]},"Spinning reserve (MW)":{%s}}'
        self.assertEqual(self.read((text % '"r1":{"G1":[1]}').encode()).reserve, {"G1": [1.0]})
        with self.assertRaises(HullError) as found:
            self.read((text % '"r1":{"G1":[1]},"r2":{"G1":[2]}').encode())
        due = "Spinning reserve (MW) has 2 products, r1, r2, and one alone can be followed"
        self.assertTrue(found.exception.sentence.endswith(due), found.exception)

    def test_reserves_of_unit_commitment_jl_by_unit_and_by_product(self) -> None:
        """Of one key, whichever version wrote it; of both keys one was skipped."""
        text = '{"Is on":{"G1":[1]},"Production (MW)":{"G1":[10]},%s}'
        key, other = '"Reserve (MW)":', '"Spinning reserve (MW)":'
        by_unit, by_product = '{"G1":[5]}', '{"r1":{"G1":[5]}}'
        by_period = (by_unit.replace("[5]", '{"1":5}'), by_product.replace("[5]", '{"1":5}'))
        for row in (key + by_unit, *(key + it for it in by_period), key + by_product, f"{key}{by_unit},{other}{{}}"):
            self.assertEqual(self.read((text % row).encode()).reserve, {"G1": [5.0]}, row)
        for row, due in (
            (
                key + '{"r1":{"G1":[5]},"r2":{"G1":[2]}}',
                "Reserve (MW) has 2 products, r1, r2, and one alone can be followed",
            ),
            (
                f"{key}{by_unit},{other}{by_product}",
                "it has both `Reserve (MW)` and `Spinning reserve (MW)`, and one alone can be followed",
            ),
        ):
            with self.assertRaises(HullError) as found:
                self.read((text % row).encode())
            self.assertTrue(found.exception.sentence.endswith(due), found.exception)

    def test_lists_of_a_unit_by_other_periods_are_refused(self) -> None:
        on, power = {"1": 1, "2": 0}, {"0": 20, "1": 0}
        why = "aren't of the same periods: '0' is in one of them alone"
        for value, due in (
            ({"thermal": {"G1": {"on": on, "power": power}}}, f"plan.json: G1, on and G1, power {why}"),
            (
                {"Is on": {"G1": on}, "Thermal production (MW)": {"G1": power}},
                f"plan.json: G1, Is on and G1, Thermal production (MW) {why}",
            ),
            (
                {"elements": {"generator": {"G1": {"commitment": {"values": on}, "pg": {"values": power}}}}},
                f"plan.json: G1, commitment and G1, pg {why}",
            ),
            ({"thermal": {"G1": {"on": on}, "G2": {"on": power}}}, f"plan.json: G1, on and G2, on {why}"),
        ):
            with self.assertRaises(HullError) as found:
                followed_json(json.dumps(value).encode(), "plan.json", 2)
            self.assertEqual(found.exception.sentence, due)
        found_lists = followed_json(b'{"thermal":{"G1":{"on":{"1":1,"2":0},"power":{"2":0,"1":20}}}}', "plan.json", 2)
        self.assertEqual((found_lists.on, found_lists.power), ({"G1": [1.0, 0.0]}, {"G1": [20.0, 0.0]}))

    def test_a_schedule_file_of_hull_is_told_by_its_reader(self) -> None:
        name, case = f"{EXAMPLES}/usual/schedule.json", read_case(f"{EXAMPLES}/usual/case.json")
        with self.assertRaises(HullError) as found:
            as_followed(name, case)
        end = "is it in kilowatts? (read_schedule reads a schedule of hull)"
        self.assertEqual(found.exception.sentence[-len(end) :], end)
        self.assertEqual(as_followed(read_schedule(name, case), case)[0].power, {"G1": [8.0], "W1": [2.0]})

    def test_lines_may_end_as_on_any_machine(self) -> None:
        for end in ("\n", "\r\n", "\r"):
            found = self.read((HEAD + "G1,1,1,10.5,2\n").replace("\n", end).encode())
            self.assertEqual((found.on, found.power, found.reserve), ({"G1": [1.0]}, {"G1": [10.5]}, {"G1": [2.0]}))


if __name__ == "__main__":
    unittest.main()
