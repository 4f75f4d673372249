"""The explanation of an edit for a bank: its parts, and its text, which is that of the Rust package."""

from __future__ import annotations

from dataclasses import dataclass
from enum import Enum
from typing import List, Optional, Tuple

from .numbers import Bank, Wave, letter

# How many of the earlier clashing banks that moved are named; the others are counted.
_MOST_MOVERS = 3


class Kind(Enum):
    """The two kinds of edit, by the sign of their rows in a list."""

    ADDING = "+"
    STRIKING = "-"


@dataclass(frozen=True)
class Place:
    """What decides the place of a bank in the rule order."""

    clashes: int
    rank: int
    bank: Bank

    def key(self) -> Tuple[int, int, Bank]:
        """Smaller for an earlier bank: more clashes, or as many and a smaller rank, or else a smaller number."""
        return -self.clashes, self.rank, self.bank


@dataclass(frozen=True)
class Order:
    """The order of a bank towards another one, before or after the edit."""

    own: Place
    other: Place

    def is_earlier(self) -> bool:
        """Whether the bank is earlier than the other one."""
        return self.own.key() < self.other.key()

    def earlier_first(self) -> Tuple[Place, Place]:
        """Both places, the earlier one first."""
        return (self.own, self.other) if self.is_earlier() else (self.other, self.own)


@dataclass(frozen=True)
class Reason:
    """A condition on the trail that holds for a bank: one of Named, Turned and LaterThan."""


@dataclass(frozen=True)
class Named(Reason):
    """(i) The row names it."""


@dataclass(frozen=True)
class Turned(Reason):
    """(ii) It clashes with a named bank, and its order towards it turned over."""

    before: Order
    now: Order


@dataclass(frozen=True)
class LaterThan(Reason):
    """(iii) It is later than a clashing bank whose wave changed."""

    bank: Bank
    before: Wave
    now: Wave


@dataclass(frozen=True)
class Choice:
    """A bank's wave, and for each lower one the earliest of the earlier clashing banks that hold it."""

    wave: Wave
    held: Tuple[Tuple[Wave, Bank], ...]


@dataclass(frozen=True)
class Explanation:
    """What an edit did to a bank, and why. Its text is str(explanation).

    kind, banks: the row of the edit.
    taken_up: whether the bank is on the trail.
    reasons: the conditions on the trail that hold for it, in their order; the last one with each bank for which it
        does, in the new order. None for a bank off the trail.
    kept: its order, after the edit, towards the named banks that it clashes with and towards which it did not turn
        over.
    now: its wave after the edit.
    before: its wave before the edit, if it moved.
    """

    bank: Bank
    kind: Kind
    banks: Tuple[Bank, Bank]
    taken_up: bool
    reasons: Tuple[Reason, ...]
    kept: Tuple[Order, ...]
    now: Choice
    before: Optional[Choice]

    def __str__(self) -> str:
        lines = self._taken_up_lines() if self.taken_up else self._left_alone_lines()
        return "\n  ".join([*lines, *self._wave_lines()])

    def _row(self) -> str:
        """The row of the edit as a list has it."""
        a, b = self.banks
        return f"{self.kind.value} {a} {b}"

    def _taken_up_lines(self) -> List[str]:
        """Each condition on the trail that holds for the bank."""
        conditions = [f"the row {self._row()} names it" for reason in self.reasons if isinstance(reason, Named)]
        conditions += [_turned(reason) for reason in self.reasons if isinstance(reason, Turned)]
        conditions += self._movers()
        starts = [f"bank {self.bank} was taken up:", *["and"] * len(conditions)]
        return [f"{start} {condition}" for start, condition in zip(starts, conditions)]

    def _movers(self) -> List[str]:
        """The earlier clashing banks that moved, if there are any."""
        movers = [_mover(reason) for reason in self.reasons if isinstance(reason, LaterThan)]
        if not movers:
            return []
        banks = "a clashing bank" if len(movers) == 1 else "clashing banks"
        others = len(movers) - _MOST_MOVERS
        more = f" and {others} more" if others > 0 else ""
        return [f"it is later than {banks} that moved: {', '.join(movers[:_MOST_MOVERS])}{more}"]

    def _left_alone_lines(self) -> List[str]:
        """That no condition on the trail holds for the bank."""
        lines = [f"bank {self.bank} was not taken up, nothing of it changed", f"the row {self._row()} does not name it"]
        if self.kept:
            lines += map(self._kept_line, self.banks)
        else:
            lines.append("it clashes with neither of them")
        return [*lines, "no earlier clashing bank moved"]

    def _kept_line(self, named: Bank) -> str:
        """That its order towards a named bank did not turn over."""
        for order in self.kept:
            if order.other.bank == named:
                earlier, _ = order.earlier_first()
                return f"its order towards bank {named} did not turn over: bank {earlier.bank} earlier, before and now"
        return f"it does not clash with bank {named}"

    def _wave_lines(self) -> List[str]:
        """Its wave after the edit, and before it if it moved."""
        if self.before is None:
            return [f"wave now: {_chosen(self.now, ' as before', 'is', 'holds')}"]
        before, now = _chosen(self.before, "", "was", "held"), _chosen(self.now, "", "is", "holds")
        return [f"wave before: {before}", f"wave now: {now}"]


class Explanations(Tuple[Explanation, ...]):
    """The explanations for every bank that moved, in the new order. Their text, one below the other, is their str."""

    __slots__ = ()

    def __str__(self) -> str:
        return "\n".join(map(str, self)) if self else "no bank moved"


def _turned(reason: Turned) -> str:
    """That an order turned over, and who was and is earlier."""
    before, now = _compared(reason.before), _compared(reason.now)
    towards = f"its order towards bank {reason.now.other.bank} turned over, and they clash"
    return f"{towards}\n  order before: {before}\n  order now: {now}"


def _compared(order: Order) -> str:
    """The earlier one of two banks, and by what."""
    first, second = order.earlier_first()
    clashes = "1 clash" if first.clashes == 1 else f"{first.clashes} clashes"
    if first.clashes != second.clashes:
        by = f"{clashes} to {second.clashes}"
    elif first.rank != second.rank:
        by = f"{clashes} each and the smaller rank, {first.rank} to {second.rank}"
    else:
        by = f"{clashes} each and the smaller number"
    return f"bank {first.bank} earlier, with {by}"


def _mover(reason: LaterThan) -> str:
    """A clashing bank that moved, with its letters."""
    return f"{reason.bank} from {letter(reason.before)} to {letter(reason.now)}"


def _chosen(choice: Choice, said: str, verb: str, holds: str) -> str:
    """A wave, and that it is the lowest free one. The verbs are in the tense of before or now."""
    held = [f"{letter(wave)} by bank {bank}" for wave, bank in choice.held]
    if held:
        held[0] = f"{letter(choice.held[0][0])} {verb} held by bank {choice.held[0][1]}"
    text = ", ".join(held) or f"no earlier clashing bank {holds} it"
    return f"{letter(choice.wave)}{said}, the lowest free: {text}"
