"""Wave plans of a locker depot, over the proved library libwave_plan.

A plan has banks, some of which clash. Its waves are those of degree-ordered greedy colouring: the bank with the most
clashes comes first, equal ones by rank and then by number, and each gets the lowest wave that no earlier clashing bank
holds. They are worked out by the library; this package decides nothing about waves.
"""

from .explanation import Choice, Explanation, Explanations, Kind, LaterThan, Named, Order, Place, Reason, Turned
from .numbers import Bank, Wave, letter
from .plan import Day, Edit, Plan, Recorded, Replayed
from .refusal import Refusal, Refused, WrongSheet
from .shelf import Name, Shelf

__all__ = [
    "Bank",
    "Choice",
    "Day",
    "Edit",
    "Explanation",
    "Explanations",
    "Kind",
    "LaterThan",
    "Name",
    "Named",
    "Order",
    "Place",
    "Plan",
    "Reason",
    "Recorded",
    "Refusal",
    "Refused",
    "Replayed",
    "Shelf",
    "Turned",
    "Wave",
    "WrongSheet",
    "letter",
]
