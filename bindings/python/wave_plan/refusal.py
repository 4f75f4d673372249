"""The refusals of the library's calls: the first question that is answered no."""

from __future__ import annotations

from enum import IntEnum
from typing import Optional, Sequence, Tuple

from .numbers import Bank


class Refusal(IntEnum):
    """The question that a refused call answers no, by its number in include/wave_plan.h."""

    question: str
    """The question that was answered no."""
    advice: str
    """What a caller does about it."""

    def __new__(cls, number: int, question: str = "", advice: str = "") -> Refusal:
        """The texts have defaults for type checkers alone, which take the lookup Refusal(number) for this call."""
        refusal = int.__new__(cls, number)
        refusal._value_ = number
        refusal.question = question
        refusal.advice = advice
        return refusal

    TOO_MANY_BANKS = 1, "Is the bank count at most 1,024?", "split the depot"
    SHORT_SLICE = (
        2,
        "Is the memory lent to the call long enough?",
        "lend more; open a shelf for as many banks as the plan has",
    )
    NO_PLAN = (
        3,
        "Does the memory hold a plan, and each used place of the shelf one of as many banks?",
        "open a plan, or read the list again; open the shelf",
    )
    NO_SUCH_BANK = (
        4,
        "Is each named bank below the bank count?",
        "correct the bank, or open a plan of more banks",
    )
    SAME_BANK = 5, "Are the two banks different?", "name two different banks"
    CLASH_THERE = 6, "Are the two banks free of a clash so far?", "nothing, they clash already"
    NO_CLASH = (
        7,
        "Do the two banks clash?",
        "nothing, or look for the edit that should have added the clash",
    )
    ROW_FULL = (
        8,
        "Have both banks fewer than 23 clashes?",
        "strike another clash first, no bank can have more",
    )
    LONG_LIST = 9, "Has the list, or the journal, at most 60,000 bytes?", "split it"
    NO_FIRST_ROW = (
        10,
        "Is row 1, or row 2 after V 2, an N row of the stated form?",
        "write it; a first row that starts with V is V 2 and nothing more",
    )
    UNREADABLE_ROW = (
        11,
        "Is the row one of the four forms?",
        "correct it: one space between parts, at most four digits",
    )
    SHORT_OUTPUT = 12, "Is the output at least as long as the sheet or the poster?", "lend more"
    NO_FIRST_FIELD = (
        13,
        "Is the journal within the slice, and its first field whole and of the stated form?",
        "start a new journal",
    )
    WRONG_FIELD = (
        14,
        "Are the field's tag and length right, and a rank at most 9,999?",
        "cut the journal before that field",
    )
    NO_SPACE = (
        15,
        "Is there space in the slice, and in 60,000 bytes, for what is to be written?",
        "lend more; a journal that is full ends there",
    )
    UNKNOWN_NAME = 16, "Is the name MORNING, NOON or CLOSE?", "use one of the three"
    NOTHING_KEPT = 17, "Is a plan kept under the name?", "keep a plan under it first"
    LATE_RANK = (
        18,
        "Does the rank come before the first edit?",
        "set ranks before the first edit: K rows right after the N row, K fields before the edits",
    )
    CAP_OUT_OF_SPAN = 19, "Is the cap from 1 to 24?", "set another"
    CAP_PASSED = (
        20,
        "Is the cap not below the waves in use, and not below those that the edit would need?",
        "raise the cap, or strike or add another clash first",
    )
    WRONG_NUMBER = (
        21,
        "Is the entry's number one above the last, the first being 1?",
        "cut the journal before that field",
    )
    MANY_BANKS_BY_RULE = (
        22,
        "Is the bank count at most 16, where a wave is read straight off the rule?",
        "ask for the kept wave, or look the bank up on the sheet",
    )
    D_RETIRED = (
        23,
        "Is the row of a list that starts with V 2 no D row?",
        "write a - row for each clash that goes",
    )
    CREW_SPAN = (
        24,
        "Are the couriers from 1 to 64, and the steps they may take at most 1,024?",
        "give another number",
    )
    NO_CREW = 25, "Does some crew of 1 to 64 couriers end within so many steps?", "allow more steps"
    NO_SHEET = (
        26,
        "Is it a sheet with each of the plan's banks once, no empty wave and the plan's foot?",
        "look at the line that is named",
    )
    SHEET_CLASH = (
        27,
        "Are clashing banks in different waves, and the waves no more than the plan's?",
        "move one of the two banks that are named, or use the planner's sheet",
    )


class Refused(Exception):
    """A refused call: the refusal, and the row of a list or the field of a journal that got it (else 0)."""

    def __init__(self, refusal: Refusal, place: int = 0) -> None:
        super().__init__(refusal, place)
        self.refusal = refusal
        self.place = place

    def __str__(self) -> str:
        at = f" at {self.place}" if self.place else ""
        return f"refused {self.refusal.value}{at}: {self.refusal.question} No. To do: {self.refusal.advice}"


class WrongSheet(Refused):
    """A sheet that is not accepted.

    line: where the text is no sheet of the plan (26), the first line at fault, from 1.
    banks: where two banks that clash stand in one wave (27), these two; None where it has too many waves (27).
    """

    def __init__(self, refusal: Refusal, line: Optional[int], banks: Optional[Tuple[Bank, Bank]]) -> None:
        super().__init__(refusal)
        self.args = (refusal, line, banks)
        self.line = line
        self.banks = banks


def refuse(number: int, results: Sequence[int]) -> None:
    """Raises the refusal that a call answered by its number and its results, if the number is one."""
    if not number:
        return
    refusal = Refusal(number)
    if refusal is Refusal.NO_SHEET:
        raise WrongSheet(refusal, results[0], None)
    if refusal is Refusal.SHEET_CLASH:
        first, second = Bank(results[1]), Bank(results[2])
        raise WrongSheet(refusal, None, (first, second) if first != second else None)
    raise Refused(refusal, results[0])
