"""Why an edit took a bank up or left it alone, and which banks hold the waves below its own.

Waves, trail and moved list are what the library's calls answered. Said here is which of the three conditions on the
trail hold for a bank:

(i) the row of the edit names it;
(ii) it clashes, after the edit, with one of the two named banks, and its order towards that bank turned over: it was
    earlier and is now later (add), or was later and is now earlier (strike);
(iii) it is later, in the new order, than a clashing bank whose wave changed.
"""

from __future__ import annotations

from dataclasses import dataclass
from typing import TYPE_CHECKING, FrozenSet, Iterator, List, Tuple

from .explanation import Choice, Explanation, Kind, LaterThan, Named, Order, Place, Reason, Turned
from .numbers import Bank, Wave

if TYPE_CHECKING:
    from .plan import Plan


@dataclass(frozen=True)
class LastEdit:
    """An accepted edit: its row, what it answered, and the waves before it."""

    kind: Kind
    banks: Tuple[Bank, Bank]
    trail: Tuple[Bank, ...]
    moved: Tuple[Bank, ...]
    waves: Tuple[Wave, ...]


class _State:
    """The plan after or before its last edit: who clashes, and the order that this gives."""

    def __init__(self, plan: Plan, waves: Tuple[Wave, ...], changed: FrozenSet[Bank]) -> None:
        """changed: the two banks of the edit that is taken back; none for the plan as it is."""
        self.waves = waves
        self._plan = plan
        self._ranks = plan.ranks
        self._changed = changed

    def row(self, b: Bank) -> FrozenSet[Bank]:
        """The banks that clash with b."""
        row = frozenset(self._plan.neighbours_of(b))
        return row ^ (self._changed - {b}) if b in self._changed else row

    def order(self, b: Bank, other: Bank) -> Order:
        return Order(self._place(b), self._place(other))

    def is_earlier_clashing(self, q: Bank, b: Bank) -> bool:
        """Whether q clashes with b and is earlier."""
        return q in self.row(b) and self.order(q, b).is_earlier()

    def choice(self, b: Bank) -> Choice:
        """The wave of b, and who holds the lower ones."""
        lower = map(Wave, range(self.waves[b]))
        return Choice(self.waves[b], tuple((wave, self._holder(b, wave)) for wave in lower))

    def _holder(self, b: Bank, wave: Wave) -> Bank:
        """The earliest of the earlier banks that clash with b and hold a wave below its own."""
        holders = (q for q in self.row(b) if self.waves[q] == wave and self.is_earlier_clashing(q, b))
        return min(holders, key=lambda q: self._place(q).key())

    def _place(self, b: Bank) -> Place:
        return Place(len(self.row(b)), self._ranks[b], b)


def explain(plan: Plan, edit: LastEdit, b: Bank) -> Explanation:
    """Explains the last edit of the plan for bank b."""
    old = _State(plan, edit.waves, frozenset(edit.banks))
    new = _State(plan, plan.waves, frozenset())
    orders = [(old.order(b, named), new.order(b, named)) for named in edit.banks if named in new.row(b)]
    turned = [pair for pair in orders if _turned(edit.kind, *pair)]
    return Explanation(
        bank=b,
        kind=edit.kind,
        banks=edit.banks,
        taken_up=b in edit.trail,
        reasons=(*_named(edit, b), *(Turned(*pair) for pair in turned), *_later(edit, new, b)),
        kept=tuple(now for before, now in orders if (before, now) not in turned),
        now=new.choice(b),
        before=old.choice(b) if b in edit.moved else None,
    )


def _turned(kind: Kind, before: Order, now: Order) -> bool:
    """Whether an order turned over, as the second condition has it."""
    was_earlier = kind is Kind.ADDING
    return before.is_earlier() == was_earlier and now.is_earlier() != was_earlier


def _named(edit: LastEdit, b: Bank) -> List[Reason]:
    return [Named()] if b in edit.banks else []


def _later(edit: LastEdit, new: _State, b: Bank) -> Iterator[Reason]:
    """The banks that moved, clash with b and are earlier."""
    for moved in edit.moved:
        if new.is_earlier_clashing(moved, b):
            yield LaterThan(moved, edit.waves[moved], new.waves[moved])
