"""Banks and waves. Both are ints at run time; a type checker keeps a bank where a wave belongs out, and the reverse."""

from __future__ import annotations

from typing import NewType

Bank = NewType("Bank", int)
"""The number of a bank (a vertex id)."""

Wave = NewType("Wave", int)
"""The number of a wave (a colour)."""


def letter(wave: Wave) -> str:
    """The letter of a wave: A to Z without I and O. The waves of a plan are from 0 to 23."""
    return "ABCDEFGHJKLMNPQRSTUVWXYZ"[wave]
