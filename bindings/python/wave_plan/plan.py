"""A plan that owns its memory."""

from __future__ import annotations

import importlib
from types import ModuleType
from typing import Any, Dict, Hashable, Iterator, List, NamedTuple, Optional, Tuple, Union, overload

from ._library import Cells, Slice, bytes_of, call, cells, copied, in_a_cell, space
from .explanation import Explanation, Explanations, Kind
from .numbers import Bank, Wave
from .refusal import Refusal, Refused, refuse
from .why import LastEdit, explain

MOST_BANKS = 1024
MOST_RANK = 9999

# The cells of each bank, and those of the tally: banks, clashes, waves, cap.
_WIDTHS = {"neighbours": 23, "degrees": 1, "waves": 1, "counts": 24, "ranks": 1, "trail": 1, "moved": 1}
_TALLY_CELLS = 4

# The calls of the two kinds of edit.
_EDITS = {Kind.ADDING: "add", Kind.STRIKING: "strike"}

# The most cells that a call answers.
_RESULT_CELLS = 3

# The bytes of the longest sheet, poster and journal, and of the field of one edit.
_SHEET_BYTES = 4084
_POSTER_BYTES = 8200
_JOURNAL_BYTES = 60000
_ENTRY_BYTES = 11


class Edit(NamedTuple):
    """An accepted edit: the banks taken up and the banks whose wave changed, both in the new order."""

    trail: Tuple[Bank, ...]
    moved: Tuple[Bank, ...]


class Recorded(NamedTuple):
    """An accepted edit, and the journal with it at the end."""

    edit: Edit
    journal: bytes


class Replayed(NamedTuple):
    """The plan of a journal, and how many bytes at its end were left over, fewer than a whole field."""

    plan: Plan
    left_over: int


class Day(NamedTuple):
    """A day as a crew serves it: the step of each bank, from 1, and how many steps there are."""

    steps: Tuple[int, ...]
    total: int


class Plan:
    """A plan of wave numbers, which are the rule's after every call. For one thread at a time.

    A refused call raises Refused and changes nothing. Plan(n) has n banks without a clash, all of rank 0, and cap 24.
    """

    __slots__ = ("_memory", "_last")

    def __init__(self, banks: int) -> None:
        n = min(in_a_cell(banks), MOST_BANKS)
        self._memory: Dict[str, Cells] = {name: cells(width * n) for name, width in _WIDTHS.items()}
        self._memory["tally"] = cells(_TALLY_CELLS)
        self._last: Optional[LastEdit] = None
        self._ask("open", banks)

    @staticmethod
    def open(banks: int) -> Plan:
        """A plan of so many banks without a clash: Plan(banks)."""
        return Plan(banks)

    @staticmethod
    def read_list(rows: Union[bytes, str]) -> Plan:
        """The plan of a list."""
        plan = Plan(MOST_BANKS)
        plan._ask("read_list", list=bytes_of(_bytes(rows)))
        return plan

    @staticmethod
    def replay(journal: bytes) -> Replayed:
        """The plan of a journal, and how many bytes of it were left over."""
        plan = Plan(MOST_BANKS)
        _, left_over, _ = plan._ask("replay", journal=bytes_of(journal))
        return Replayed(plan, left_over)

    def copy(self) -> Plan:
        """The same plan in memory of its own."""
        plan = Plan(0)
        plan._memory = {name: copied(lent) for name, lent in self._memory.items()}
        plan._last = self._last
        return plan

    def __copy__(self) -> Plan:
        return self.copy()

    def __deepcopy__(self, _memo: object) -> Plan:
        return self.copy()

    def __eq__(self, other: object) -> bool:
        """Whether the other is a plan of the same banks, clashes, ranks and cap, and so of the same waves."""
        if not isinstance(other, Plan):
            return NotImplemented
        return self._held() == other._held()

    def __repr__(self) -> str:
        return f"<Plan of {self.banks} banks, {self.clashes} clashes, {self.wave_count} waves, cap {self.cap}>"

    # Edits

    def add(self, a: Bank, b: Bank) -> Edit:
        """Adds the clash of a and b."""
        return self._edit(Kind.ADDING, a, b)

    def strike(self, a: Bank, b: Bank) -> Edit:
        """Strikes the clash of a and b."""
        return self._edit(Kind.STRIKING, a, b)

    def start_journal(self) -> bytes:
        """A new journal of the plan."""
        return self._written("start_journal", "journal", _JOURNAL_BYTES)

    def add_recorded(self, journal: bytes, a: Bank, b: Bank) -> Recorded:
        """Adds the clash of a and b; its field stands at the end of the journal that is returned."""
        return self._record(Kind.ADDING, journal, a, b)

    def strike_recorded(self, journal: bytes, a: Bank, b: Bank) -> Recorded:
        """Strikes the clash of a and b; its field stands at the end of the journal that is returned."""
        return self._record(Kind.STRIKING, journal, a, b)

    def set_rank(self, b: Bank, rank: int) -> None:
        """Sets the rank of bank b, in a plan without clashes.

        Refused as a K row is: 18 where there are clashes, 4 where there is no such bank; 3 for a rank above 9,999, with
        which the memory would hold no plan.
        """
        bank, cell = in_a_cell(b), in_a_cell(rank)
        if self.clashes > 0:
            raise Refused(Refusal.LATE_RANK)
        if bank >= self.banks:
            raise Refused(Refusal.NO_SUCH_BANK)
        if cell > MOST_RANK:
            raise Refused(Refusal.NO_PLAN)
        self._memory["ranks"][bank] = cell
        self._last = None

    @property
    def cap(self) -> int:
        """The most waves that an edit may lead to, from 1 to 24. Edits that would need more are refused."""
        return self._tally(3)

    @cap.setter
    def cap(self, cap: int) -> None:
        self._ask("set_cap", cap)

    # What the plan holds

    @property
    def banks(self) -> int:
        """How many banks the plan has."""
        return self._tally(0)

    @property
    def clashes(self) -> int:
        """How many clashes the plan has."""
        return self._tally(1)

    @property
    def wave_count(self) -> int:
        """How many waves the plan has."""
        return self._tally(2)

    @property
    def waves(self) -> Tuple[Wave, ...]:
        """The kept waves by bank number."""
        return tuple(map(Wave, self._memory["waves"][: self.banks]))

    @property
    def ranks(self) -> Tuple[int, ...]:
        """The ranks by bank number."""
        return tuple(self._memory["ranks"][: self.banks])

    def neighbours_of(self, b: Bank) -> Tuple[Bank, ...]:
        """The banks that clash with bank b, ascending; none if there is no such bank.

        It is clashes_of without its questions: only the library's calls wrote the rows.
        """
        if in_a_cell(b) >= self.banks:
            return ()
        start = _WIDTHS["neighbours"] * b
        return tuple(map(Bank, self._memory["neighbours"][start : start + self._memory["degrees"][b]]))

    def clash_pairs(self) -> Iterator[Tuple[Bank, Bank]]:
        """The clashes, smaller bank first, lowest pair first."""
        for a in map(Bank, range(self.banks)):
            yield from ((a, b) for b in self.neighbours_of(a) if a < b)

    # Questions to the plan

    def wave_of(self, b: Bank) -> Wave:
        """The wave of bank b."""
        return Wave(self._ask("wave_of", b)[0])

    def clashes_of(self, b: Bank) -> Tuple[Bank, ...]:
        """The banks that clash with bank b, ascending."""
        start, length, _ = self._ask("clashes_of", b)
        return tuple(map(Bank, self._memory["neighbours"][start : start + length]))

    def wave_bound(self) -> int:
        """How many waves the plan has at most, from its degrees alone."""
        return self._ask("wave_bound")[0]

    def wave_by_rule(self, b: Bank) -> Wave:
        """The wave of bank b in a plan of at most 16 banks, read straight off the rule."""
        return Wave(self._ask("wave_by_rule", b)[0])

    def crew_steps(self, couriers: int) -> Day:
        """The day as so many couriers, from 1 to 64, serve it."""
        steps = cells(self.banks)
        total = self._ask("crew_steps", couriers, steps=steps)[0]
        return Day(tuple(steps), total)

    def least_crew(self, limit: int) -> int:
        """The least crew, from 1 to 64, that ends within so many steps."""
        return self._ask("least_crew", limit)[0]

    def sheet(self) -> str:
        """The sheet."""
        return self._written("write_sheet", "out", _SHEET_BYTES).decode("ascii")

    def poster(self) -> str:
        """The gate poster."""
        return self._written("write_poster", "out", _POSTER_BYTES).decode("ascii")

    def check_sheet(self, sheet: Union[bytes, str]) -> None:
        """Returns if the sheet, from anybody, is one of this plan; else raises WrongSheet, which says what is wrong.

        It is one if its waves are some of this plan's banks, no more than the plan's, and keep clashing banks apart.
        """
        self._ask("check_sheet", sheet=bytes_of(_bytes(sheet)))

    @overload
    def why(self, b: Bank) -> Explanation: ...

    @overload
    def why(self) -> Explanations: ...

    def why(self, b: Optional[Bank] = None) -> Union[Explanation, Explanations]:
        """Explains the last edit for bank b; without a bank, for every bank that moved, in the new order.

        The last edit is that of add, strike, add_recorded or strike_recorded. A list, a replay, a graph, a return to a
        kept plan and set_rank leave none; then LookupError is raised. 4 where there is no such bank.
        """
        last = self._last
        if last is None:
            raise LookupError("no edit has been made")
        if b is None:
            return Explanations(explain(self, last, moved) for moved in last.moved)
        if in_a_cell(b) >= self.banks:
            raise Refused(Refusal.NO_SUCH_BANK)
        return explain(self, last, b)

    # networkx

    @staticmethod
    def from_networkx(graph: Any, rank: Optional[str] = None) -> Tuple[Plan, List[Hashable]]:
        """The plan of a graph, and its nodes by bank number, which is their order in the graph.

        rank: the node attribute that has the rank; a node without it has rank 0. Every edge is added as a clash, so
        that a loop is refused by 5, a parallel edge by 6 and a 24th edge of a node by 8.
        """
        if not isinstance(graph, _networkx().Graph):
            raise TypeError(f"{type(graph).__name__} is no graph of networkx")
        nodes: List[Hashable] = list(graph.nodes)
        bank_of = {node: Bank(number) for number, node in enumerate(nodes)}
        plan = Plan(len(nodes))
        if rank is not None:
            for node, bank in bank_of.items():
                plan.set_rank(bank, graph.nodes[node].get(rank, 0))
        for first, second in graph.edges():
            plan.add(bank_of[first], bank_of[second])
        plan._last = None
        return plan, nodes

    def to_networkx(self) -> Any:
        """The plan as a networkx.Graph: the banks as nodes, with the attributes wave and rank, the clashes as edges."""
        graph = _networkx().Graph()
        for bank, (wave, rank) in enumerate(zip(self.waves, self.ranks)):
            graph.add_node(bank, wave=wave, rank=rank)
        graph.add_edges_from(self.clash_pairs())
        return graph

    # How the calls are made

    def _ask(self, function: str, *numbers: int, **lent: Slice) -> List[int]:
        """Makes a call on the plan's memory, and on the slices that it takes beside. The answer is its result cells."""
        result = cells(_RESULT_CELLS)
        number = call(function, {**self._memory, **lent, "result": result}, *numbers)
        refuse(number, result[:])
        return result[:]

    def _written(self, function: str, name: str, most: int) -> bytes:
        """What a call writes to the front of the slice of a name."""
        out = space(most)
        length = self._ask(function, **{name: out})[0]
        return bytes(out[:length])

    def _edit(self, kind: Kind, a: Bank, b: Bank) -> Edit:
        waves = self.waves
        return self._edited(kind, (a, b), waves, self._ask(_EDITS[kind], a, b))

    def _record(self, kind: Kind, journal: bytes, a: Bank, b: Bank) -> Recorded:
        waves = self.waves
        lent = bytes_of(journal + bytes(_ENTRY_BYTES))
        results = self._ask(f"{_EDITS[kind]}_recorded", a, b, len(journal), journal=lent)
        edit = self._edited(kind, (a, b), waves, results)
        return Recorded(edit, bytes(lent[: results[2]]))

    def _edited(self, kind: Kind, banks: Tuple[Bank, Bank], waves: Tuple[Wave, ...], results: List[int]) -> Edit:
        """What an accepted edit left in trail and moved. The waves are those before it."""
        moved, trail, _ = results
        edit = Edit(self._front("trail", trail), self._front("moved", moved))
        self._last = LastEdit(kind, banks, edit.trail, edit.moved, waves)
        return edit

    def _front(self, name: str, length: int) -> Tuple[Bank, ...]:
        return tuple(map(Bank, self._memory[name][:length]))

    def _tally(self, cell: int) -> int:
        number: int = self._memory["tally"][cell]
        return number

    def _held(self) -> Tuple[object, ...]:
        """What fixes the plan: banks, clashes, ranks and cap."""
        return self.banks, self.cap, self.ranks, tuple(self.clash_pairs())


def _bytes(text: Union[bytes, str]) -> bytes:
    """The text as bytes. A character that is no ASCII becomes bytes that are none, and is refused where it stands."""
    return text.encode("utf-8", "surrogatepass") if isinstance(text, str) else text


def _networkx() -> ModuleType:
    try:
        return importlib.import_module("networkx")
    except ImportError as error:
        raise ImportError("from_networkx and to_networkx need the package networkx, which is not there") from error
