"""Lists, sheets and posters: the repository's examples, refused rows, and sheets from anybody."""

import unittest

from common import SIX_BANKS, RefusalCase, all_clash, example

from wave_plan import Plan, WrongSheet


class ListsTest(RefusalCase):
    def test_examples(self):
        for name in ("depot", "six_banks", "street", "street_sold"):
            self.assertEqual(Plan.read_list(example(f"{name}.list")).sheet().encode(), example(f"{name}.sheet"), name)
        self.assertEqual(Plan.read_list(example("ten_banks.list")).poster().encode(), example("ten_banks.poster"))

    def test_the_last_row_counts_with_or_without_a_line_feed(self):
        rows = "N 3\n+ 0 1\n+ 1 2"
        self.assertEqual(Plan.read_list(rows), Plan.read_list(rows + "\n"))
        self.assertEqual(Plan.read_list(rows).clashes, 2)

    def test_text_and_bytes_are_the_same_list(self):
        self.assertEqual(Plan.read_list(SIX_BANKS), Plan.read_list(SIX_BANKS.encode()))

    def test_refused_rows(self):
        for rows, number, row in [
            ("", 10, 1),
            ("N 1025", 1, 1),
            ("V 2\nK 0 1", 10, 2),
            ("V 2\nN 1025", 1, 2),
            ("N 3\n+ 0 1\n\n+ 1 2", 11, 3),
            ("N 3\n+ 0 ١", 11, 2),
            ("N 3\n+ 0 \ud800", 11, 2),
            ("N 3\n+ 9999 9999", 4, 2),
            ("N 3\n+ 1 1", 5, 2),
            ("N 3\n+ 0 1\n+ 1 0", 6, 3),
            ("N 3\n- 0 1", 7, 2),
            ("N 25\n" + "".join(f"+ 0 {b}\n" for b in range(1, 25)), 8, 25),
            ("N 3\n+ 0 1\nK 2 5", 18, 3),
            ("V 2\nN 3\n+ 0 1\nD 0", 23, 4),
        ]:
            self.refused(number, Plan.read_list, rows, place=row)

    def test_padded_numbers_and_d_rows(self):
        plan = Plan.read_list("N 0006\n+ 05 1\n+ 0001 2\nD 1")
        self.assertEqual((plan.banks, plan.clashes), (6, 0))

    def test_60000_bytes(self):
        rows = b"N 3\n" + b"+ 1 2\n- 1 2\n" * 4999
        plan = Plan.read_list(rows + b"+ 01 02\n")
        self.assertEqual((len(rows), plan.clashes), (60000 - 8, 1))
        self.refused(9, Plan.read_list, rows + b"+ 001 02\n")


class SheetsTest(RefusalCase):
    def wrong(self, plan, sheet, number, line=None, banks=None):
        wrong = self.refused(number, plan.check_sheet, sheet)
        self.assertIsInstance(wrong, WrongSheet)
        self.assertEqual((wrong.line, wrong.banks), (line, banks))

    def test_the_longest_sheet_and_poster(self):
        plan = all_clash(24)
        self.assertEqual(plan.sheet().splitlines()[24:], ["Z 23", "TOTAL 24 276"])
        wide = Plan.open(1024)
        self.assertEqual((len(wide.poster()), wide.sheet().split()[2:5]), (8200 // 4 * 3, ["A", "0", "1"]))

    def test_a_sheet_from_anybody(self):
        plan = Plan.read_list(example("six_banks.list"))
        plan.check_sheet(example("six_banks.drawn"))
        plan.check_sheet(example("six_banks.drawn").decode())
        plan.check_sheet(plan.sheet())
        self.assertEqual(plan, Plan.read_list(example("six_banks.list")))

    def test_a_wrong_sheet(self):
        plan = Plan.read_list(example("six_banks.list"))
        self.wrong(plan, "WAVES 2\nA 0 3\nB 1 2 4 5\nTOTAL 6 5\n", 27, banks=(1, 5))
        self.wrong(plan, "WAVES 4\nA 0 1\nB 2 4\nC 3\nD 5\nTOTAL 6 5\n", 27)
        self.wrong(plan, "WAVES 2\nA 0 3 5\nB 1 2 4\nTOTAL 6 6\n", 26, line=4)
        self.wrong(plan, "WAVES 2\nA 0 3 5\nB 1 2 x\nTOTAL 6 5\n", 26, line=3)
        self.wrong(plan, "", 26, line=1)

    def test_own_sheets_are_accepted(self):
        for n in (0, 1, 2, 7, 24):
            plan = all_clash(n)
            plan.check_sheet(plan.sheet())


if __name__ == "__main__":
    unittest.main()
