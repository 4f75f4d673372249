"""The shared library: where it is found, and how its functions are called.

CALLS is include/wave_plan.h in short; a test holds it against the header.
"""

from __future__ import annotations

import ctypes
import os
from pathlib import Path
from typing import Any, Callable, Dict, FrozenSet, List, Mapping, Tuple, Type, Union

Cells = ctypes.Array[ctypes.c_uint16]
Bytes = ctypes.Array[ctypes.c_uint8]
Slice = Union[Cells, Bytes]

# The slices of 16-bit cells and those of bytes, by their names in the header, and the number that is a size. Every
# other parameter is a 16-bit number.
CELLS: FrozenSet[str] = frozenset("neighbours degrees waves counts ranks trail moved tally result steps shelf".split())
BYTES: FrozenSet[str] = frozenset("list out journal name sheet".split())
SIZES: FrozenSet[str] = frozenset(["length"])

_READ = "neighbours degrees waves counts ranks tally"
_MADE = "neighbours* degrees* waves* counts* ranks*"
_EDITED = "neighbours* degrees* waves* counts* ranks trail* moved* tally*"

# The parameters of each function, in the header's order, by its name without wave_plan_. A slice stands for its pointer
# and its length; * marks one that the call writes.
CALLS: Mapping[str, str] = {
    "open": f"{_MADE} tally* banks",
    "add": f"{_EDITED} result* a b",
    "strike": f"{_EDITED} result* a b",
    "set_cap": "neighbours degrees waves counts ranks tally* cap",
    "wave_of": f"{_READ} result* b",
    "clashes_of": f"{_READ} result* b",
    "wave_bound": f"{_READ} result*",
    "wave_by_rule": f"{_READ} result* b",
    "crew_steps": f"{_READ} steps* result* couriers",
    "least_crew": f"{_READ} result* limit",
    "read_list": f"list {_MADE} trail* moved* tally* result*",
    "write_sheet": f"{_READ} out* result*",
    "start_journal": f"{_READ} journal* result*",
    "add_recorded": f"{_EDITED} journal* result* a b length",
    "strike_recorded": f"{_EDITED} journal* result* a b length",
    "replay": f"journal {_MADE} trail* moved* tally* result*",
    "write_poster": f"{_READ} out* result*",
    "open_shelf": "shelf* banks",
    "keep": f"{_READ} shelf* name",
    "come_back": f"{_MADE} moved* tally* shelf name result*",
    "check_sheet": f"{_READ} result* sheet",
}


def cells(length: int) -> Cells:
    """So many cells, all 0."""
    return (ctypes.c_uint16 * length)()


def space(length: int) -> Bytes:
    """So many bytes, all 0."""
    return (ctypes.c_uint8 * length)()


def copied(lent: Cells) -> Cells:
    """The same cells in memory of their own."""
    return type(lent).from_buffer_copy(lent)


def bytes_of(data: bytes) -> Bytes:
    """A copy of the bytes, to be lent."""
    return (ctypes.c_uint8 * len(data)).from_buffer_copy(data)


def in_a_cell(number: int) -> int:
    """The number as a cell holds it. One above 65,535 becomes 65,535, which no call takes either: it is no bank, rank,
    cap, crew, limit or length of a journal, so that it gets the refusal that is due."""
    if number < 0:
        raise ValueError(f"{number} is negative")
    return min(number, 65535)


def call(function: str, lent: Mapping[str, Slice], *numbers: int) -> int:
    """Calls a function: the slices of its names out of those lent, then the numbers in the header's order. The answer
    is 0 or the number of a refusal."""
    arguments: List[object] = []
    for name in _SLICES[function]:
        arguments += [lent[name], len(lent[name])]
    arguments += map(in_a_cell, numbers)
    return _FUNCTIONS[function](*arguments)


def _slices(parameters: str) -> Tuple[str, ...]:
    names = (word.rstrip("*") for word in parameters.split())
    return tuple(name for name in names if name in CELLS | BYTES)


def argument_types(parameters: str) -> List[Type[Any]]:
    """The C types of the parameters."""
    types: List[Type[Any]] = []
    for word in parameters.split():
        name = word.rstrip("*")
        if name in CELLS:
            types += [ctypes.POINTER(ctypes.c_uint16), ctypes.c_size_t]
        elif name in BYTES:
            types += [ctypes.POINTER(ctypes.c_uint8), ctypes.c_size_t]
        else:
            types.append(ctypes.c_size_t if name in SIZES else ctypes.c_uint16)
    return types


def _place() -> str:
    """Where the library is: named by the environment, beside the package, in its repository, or the system's."""
    given = os.environ.get("WAVE_PLAN_LIBRARY")
    if given:
        return given
    here = Path(__file__).resolve().parent
    for folder in (here, (here / "../../../target/staticlib").resolve()):
        if (folder / "libwave_plan.so").exists():
            return str(folder / "libwave_plan.so")
    return "libwave_plan.so.0"


def _load() -> ctypes.PyDLL:
    """The library. PyDLL keeps the interpreter's lock during a call: no two threads are in one plan's memory."""
    try:
        return ctypes.PyDLL(_place())
    except OSError as error:
        advice = "make shared builds it; WAVE_PLAN_LIBRARY=.. says where it is"
        raise ImportError(f"the wave plan library cannot be loaded: {error} ({advice})") from error


def _declare(library: ctypes.PyDLL) -> Dict[str, Callable[..., int]]:
    """The functions of the table, declared with their types."""
    functions: Dict[str, Callable[..., int]] = {}
    for name, parameters in CALLS.items():
        function = library[f"wave_plan_{name}"]
        function.argtypes = argument_types(parameters)
        function.restype = ctypes.c_uint16
        functions[name] = function
    return functions


_SLICES = {name: _slices(parameters) for name, parameters in CALLS.items()}
_FUNCTIONS = _declare(_load())
