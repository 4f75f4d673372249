"""Each function by itself, on slices of exactly the cells that it needs: lent memory arrives where it belongs."""

import unittest

import common  # noqa: F401

from wave_plan import _library
from wave_plan._library import CALLS, CELLS, call

N = 3
LENGTHS = {
    **{name: N for name in "degrees waves ranks trail moved steps".split()},
    **{"neighbours": 23 * N, "counts": 24 * N, "tally": 4, "shelf": 3 * (50 * N + 5)},
}
RESULTS = {
    **{name: 3 for name in ("add_recorded", "strike_recorded", "check_sheet")},
    **{name: 2 for name in ("add", "strike", "clashes_of", "replay")},
}
NUMBERS = {"a": 0, "b": 1, "banks": N, "cap": 3, "couriers": 2, "limit": 3, "length": 5 + 11}


def numbers_of(function):
    """The numbers with which the function is accepted, or refused after question 5."""
    return [NUMBERS[name] for name in CALLS[function].split() if name in NUMBERS]


def memory(function):
    """A plan of three banks, of which 0 and 2 clash, and every other slice that a call takes."""
    lent = {name: _library.cells(length) for name, length in LENGTHS.items()}
    lent["result"] = _library.cells(RESULTS.get(function, 1))
    lent["list"] = _library.bytes_of(b"N 3\n+ 0 2")
    lent["sheet"] = _library.bytes_of(b"WAVES 2\nA 0 1\nB 2\nTOTAL 3 1\n")
    lent["name"] = _library.bytes_of(b"NOON    ")
    lent["out"] = _library.space(2050)
    journal = bytes([0x4E, 2, 0, N, 0, 0x2B, 8, 0, 1, 0, 0, 0, 0, 0, 2, 0])
    lent["journal"] = _library.bytes_of(journal + bytes(11 if function != "replay" else 0))
    scratch = {**lent, "result": _library.cells(2)}
    assert call("open", lent, N) == call("open_shelf", lent, N) == call("add", scratch, 0, 2) == 0
    assert call("keep", lent) == 0
    return lent


def held(lent):
    """The cells and bytes of all slices but the result."""
    return {name: cells[:] for name, cells in lent.items() if name != "result"}


class SlicesTest(unittest.TestCase):
    def test_every_function_takes_slices_of_its_length(self):
        for function in CALLS:
            expected = 7 if function.startswith("strike") else 0
            self.assertEqual(call(function, memory(function), *numbers_of(function)), expected, function)

    def test_one_cell_less_gets_2_and_changes_nothing(self):
        for function, words in CALLS.items():
            for name in CELLS & {word.rstrip("*") for word in words.split()}:
                with self.subTest(function=function, slice=name):
                    lent = memory(function)
                    lent[name] = _library.cells(len(lent[name]) - 1)
                    before = held(lent)
                    self.assertEqual(call(function, lent, *numbers_of(function)), 2)
                    self.assertEqual(held(lent), before)

    def test_memory_that_holds_no_plan_gets_3(self):
        without_question_5 = {"open", "open_shelf", "read_list", "replay"}
        for function in CALLS.keys() - without_question_5:
            with self.subTest(function=function):
                lent = memory(function)
                lent["waves"][1] = 9
                before = held(lent)
                self.assertEqual(call(function, lent, *numbers_of(function)), 3)
                self.assertEqual(held(lent), before)

    def test_a_tally_of_too_many_banks_gets_1(self):
        for function in ("add", "strike", "wave_of", "keep"):
            lent = memory(function)
            lent["tally"][0] = 1025
            self.assertEqual(call(function, lent, *numbers_of(function)), 1)

    def test_a_short_output_gets_12(self):
        for function, length in (("write_sheet", 28), ("write_poster", 2050)):
            lent = memory(function)
            lent["out"] = _library.space(length - 1)
            self.assertEqual(call(function, lent), 12)

    def test_a_journal_length_beyond_the_slice_gets_13(self):
        lent = memory("add_recorded")
        self.assertEqual(call("add_recorded", lent, 0, 1, len(lent["journal"]) + 1), 13)


if __name__ == "__main__":
    unittest.main()
