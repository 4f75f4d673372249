"""The calls, the limits and the refusals against include/wave_plan.h, and the refusals' texts against bindings/rust."""

import ctypes
import re
import unittest

from common import REPOSITORY

from wave_plan import Refusal, _library, plan, shelf

HEADER = (REPOSITORY / "include" / "wave_plan.h").read_text()
DEFINED = {name: int(value, 0) for name, value in re.findall(r"#define WAVE_PLAN_(\w+) (\w+)", HEADER)}


def header_calls():
    """The functions of the header: return type, and parameters in order as type, whether a pointer, and name."""
    text = re.sub(r"/\*.*?\*/", "", HEADER, flags=re.S)
    for returned, name, parameters in re.findall(r"^(\w+) wave_plan_(\w+)\((.*?)\);", text, flags=re.S | re.M):
        yield name, returned, [re.sub(r"\s+", " ", parameter).strip() for parameter in parameters.split(",")]


def table_parameters(words):
    """The parameters of a row of the table, as the header writes them."""
    for word in words.split():
        name, const = word.rstrip("*"), "" if word.endswith("*") else "const "
        if name in _library.CELLS:
            yield from (f"{const}uint16_t *{name}", f"size_t {name}_cells")
        elif name in _library.BYTES:
            yield from (f"{const}uint8_t *{name}", f"size_t {name}_bytes")
        else:
            yield f"{'size_t' if name in _library.SIZES else 'uint16_t'} {name}"


C_TYPES = {
    "uint16_t *": ctypes.POINTER(ctypes.c_uint16),
    "uint8_t *": ctypes.POINTER(ctypes.c_uint8),
    "uint16_t ": ctypes.c_uint16,
    "size_t ": ctypes.c_size_t,
}


class HeaderTest(unittest.TestCase):
    def test_the_table_has_the_calls_of_the_header(self):
        calls = {name: parameters for name, _, parameters in header_calls()}
        table = {name: list(table_parameters(words)) for name, words in _library.CALLS.items()}
        self.assertEqual(table, calls)
        self.assertEqual(HEADER.count("uint16_t wave_plan_"), len(calls))

    def test_the_types_declared_are_those_of_the_header(self):
        for name, returned, parameters in header_calls():
            types = [C_TYPES[re.fullmatch(r"(?:const )?(\w+ \*?)\w+", parameter)[1]] for parameter in parameters]
            function = _library._FUNCTIONS[name]
            self.assertEqual(list(function.argtypes), types, name)
            self.assertEqual(function.restype, C_TYPES[f"{returned} "], name)

    def test_limits(self):
        limits = {
            "MOST_BANKS": plan.MOST_BANKS,
            "MOST_RANK": plan.MOST_RANK,
            "ROW_CELLS": plan._WIDTHS["neighbours"],
            "COUNT_CELLS": plan._WIDTHS["counts"],
            "TALLY_CELLS": plan._TALLY_CELLS,
            "MOST_SHEET_BYTES": plan._SHEET_BYTES,
            "MOST_POSTER_BYTES": plan._POSTER_BYTES,
            "MOST_JOURNAL_BYTES": plan._JOURNAL_BYTES,
            "ENTRY_BYTES": plan._ENTRY_BYTES,
            "PLACES": len(shelf.Name),
        }
        self.assertEqual(limits, {name: DEFINED[name] for name in limits})
        most_results = max(value for name, value in DEFINED.items() if name.endswith("_RESULTS"))
        self.assertEqual(plan._RESULT_CELLS, most_results)

    def test_refusals_have_the_header_numbers(self):
        refusals = re.findall(r"#define WAVE_PLAN_(\w+) (\d+) +/\* .*\? ?.*\*/", HEADER)
        self.assertEqual([(r.name, str(r.value)) for r in Refusal], refusals)

    def test_refusals_have_the_texts_of_the_rust_package(self):
        source = (REPOSITORY / "bindings" / "rust" / "src" / "refusal.rs").read_text()
        rows = re.findall(r'^ +(\w+) = (\d+): "(.*)",\s+"(.*)";', source, flags=re.M)
        texts = [(r.name.replace("_", "").lower(), str(r.value), r.question, r.advice) for r in Refusal]
        self.assertEqual(texts, [(name.lower(), *rest) for name, *rest in rows])


if __name__ == "__main__":
    unittest.main()
