"""A shelf that owns its memory, and the names under which plans are kept in it."""

from __future__ import annotations

from enum import Enum
from typing import Tuple, Union

from ._library import bytes_of, call, cells, copied, in_a_cell
from .numbers import Bank
from .plan import MOST_BANKS, Plan
from .refusal import refuse


class Name(Enum):
    """The names under which plans are kept, in the order of their places."""

    MORNING = "MORNING"
    NOON = "NOON"
    CLOSE = "CLOSE"


class Shelf:
    """The places of three plans of so many banks. A name is a Name or its text; another text is refused by 16."""

    __slots__ = ("_cells",)

    def __init__(self, banks: int) -> None:
        place_cells = 50 * min(in_a_cell(banks), MOST_BANKS) + 5
        self._cells = cells(len(Name) * place_cells)
        refuse(call("open_shelf", {"shelf": self._cells}, banks), [0])

    @staticmethod
    def open(banks: int) -> Shelf:
        """A shelf for plans of so many banks, with nothing kept: Shelf(banks)."""
        return Shelf(banks)

    def copy(self) -> Shelf:
        """The same shelf in memory of its own."""
        shelf = Shelf(0)
        shelf._cells = copied(self._cells)
        return shelf

    def __copy__(self) -> Shelf:
        return self.copy()

    def __deepcopy__(self, _memo: object) -> Shelf:
        return self.copy()

    def keep(self, plan: Plan, name: Union[Name, str]) -> None:
        """Keeps the plan and its cap under a name, in the place of what was kept there before."""
        plan._ask("keep", shelf=self._cells, name=bytes_of(_padded(name)))

    def come_back(self, plan: Plan, name: Union[Name, str]) -> Tuple[Bank, ...]:
        """Makes the plan the one that is kept under a name, with its cap. The answer is the banks whose wave differs,
        ascending. A journal of the plan left ends here; start a new one."""
        moved = plan._ask("come_back", shelf=self._cells, name=bytes_of(_padded(name)))[0]
        plan._last = None
        return plan._front("moved", moved)


def _padded(name: Union[Name, str]) -> bytes:
    """The eight bytes of a name; more if the text is longer."""
    text = name.value if isinstance(name, Name) else name
    return text.encode("utf-8", "surrogatepass").ljust(8)
