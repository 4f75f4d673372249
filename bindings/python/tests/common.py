"""What the tests share: the package's folder on the path, the repository, and refusals that are expected."""

import importlib.util
import os
import sys
import unittest
from pathlib import Path

PACKAGE_FOLDER = Path(__file__).resolve().parents[1]
REPOSITORY = PACKAGE_FOLDER.parents[1]
sys.path.insert(0, str(PACKAGE_FOLDER))

from wave_plan import Plan, Refused  # noqa: E402

# M8: six banks, two waves.
SIX_BANKS = "N 6\n+ 0 4\n+ 0 2\n+ 2 3\n+ 1 3\n+ 1 5\n+ 2 5"


def missing(module):
    """Whether a module that some tests need is not there. An error if WAVE_PLAN_TEST_.. says that it must be."""
    missing = importlib.util.find_spec(module) is None
    variable = f"WAVE_PLAN_TEST_{module.upper()}"
    if missing and os.environ.get(variable) == "1":
        raise ImportError(f"{variable}=1 asks for {module}, which is not there")
    return missing


def example(name):
    """The bytes of a file of the repository's examples."""
    return (REPOSITORY / "examples" / name).read_bytes()


def all_clash(n):
    """A plan of n banks that all clash with each other."""
    plan = Plan.open(n)
    for b in range(n):
        for a in range(b):
            plan.add(a, b)
    return plan


class RefusalCase(unittest.TestCase):
    def refused(self, number, function, *arguments, place=0):
        """The exception of a call that must be refused by the number, at the row or field."""
        with self.assertRaises(Refused) as caught:
            function(*arguments)
        self.assertEqual((caught.exception.refusal.value, caught.exception.place), (number, place))
        return caught.exception
