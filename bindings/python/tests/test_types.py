"""The type hints, by mypy: the package is strict, and a bank does not stand where a wave belongs, nor the reverse.

Where mypy is missing these tests are skipped, or fail if WAVE_PLAN_TEST_MYPY=1 is set.
"""

import os
import re
import subprocess
import sys
import tempfile
import unittest
from pathlib import Path

from common import PACKAGE_FOLDER, missing

CALLER = """\
from wave_plan import Bank, Plan, Refusal, Wave, letter

plan = Plan.open(3)
plan.add(Bank(0), Bank(1))
plan.why(Bank(0)).now.wave, plan.why()[0].reasons, Refusal(4).question, letter(plan.wave_of(Bank(1)))
letter(Bank(1))  # wrong
plan.wave_of(Wave(1))  # wrong
plan.strike(plan.waves[0], Bank(1))  # wrong
"""


@unittest.skipIf(missing("mypy"), "mypy is not there")
class TypesTest(unittest.TestCase):
    def mypy(self, *arguments):
        """What mypy prints about the package, or about a file."""
        command = [sys.executable, "-m", "mypy", "--cache-dir", os.devnull, *arguments]
        environment = {**os.environ, "MYPYPATH": str(PACKAGE_FOLDER)}
        return subprocess.run(command, cwd=PACKAGE_FOLDER, env=environment, capture_output=True, text=True).stdout

    def test_the_package_is_strict(self):
        self.assertRegex(self.mypy(), r"\ASuccess: no issues found in \d+ source files\n\Z")

    def test_banks_and_waves_are_kept_apart(self):
        with tempfile.TemporaryDirectory() as folder:
            caller = Path(folder) / "caller.py"
            caller.write_text(CALLER)
            told = self.mypy("--strict", str(caller))
        refused = [int(line) for line in re.findall(r"caller\.py:(\d+): error: .*\[arg-type\]", told)]
        wrong = [number for number, line in enumerate(CALLER.splitlines(), 1) if line.endswith("# wrong")]
        self.assertEqual((refused, told.count("error:")), (wrong, len(wrong)), told)


if __name__ == "__main__":
    unittest.main()
