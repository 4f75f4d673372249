"""All tests, as `python3 -m unittest discover` runs them. The last line counts them, without those that were skipped."""

import sys
import unittest
from pathlib import Path

suite = unittest.defaultTestLoader.discover(str(Path(__file__).resolve().parent))
result = unittest.TextTestRunner().run(suite)
wrong = len(result.failures) + len(result.errors) + len(result.unexpectedSuccesses)
for test, why in result.skipped:
    print(f"skipped: {test}: {why}")
print(f"{result.testsRun - wrong - len(result.skipped)} passed, {wrong} failed")
sys.exit(0 if result.wasSuccessful() else 1)
