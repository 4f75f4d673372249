"""The package from outside: where it finds the library, what it says if there is none, its wheel, and its README."""

import doctest
import os
import shutil
import subprocess
import sys
import tempfile
import unittest
from pathlib import Path
from zipfile import ZipFile

from common import PACKAGE_FOLDER

import wheel_backend
from wave_plan import _library

PROGRAM = "from wave_plan import _library, Plan; print(_library._load()._name); Plan.read_list('N 2').sheet()"


def loaded():
    """The file that these tests have loaded."""
    return Path(_library._load()._name)


class FindTest(unittest.TestCase):
    def setUp(self):
        self.folder = Path(tempfile.mkdtemp())
        self.addCleanup(shutil.rmtree, self.folder)

    def package_in(self, *parts):
        """A copy of the package, without the library, in a folder below."""
        folder = self.folder.joinpath(*parts)
        left_out = shutil.ignore_patterns("__pycache__", "*.so")
        shutil.copytree(PACKAGE_FOLDER / "wave_plan", folder / "wave_plan", ignore=left_out)
        return folder

    def put_library(self, *parts):
        place = self.folder.joinpath(*parts)
        place.parent.mkdir(parents=True, exist_ok=True)
        shutil.copy(loaded(), place)
        return place

    def run_in(self, package, **environment):
        """What the program prints with the package, without the folders and variables of these tests."""
        left_out = ("WAVE_PLAN_LIBRARY", "LD_LIBRARY_PATH")
        kept = {name: value for name, value in os.environ.items() if name not in left_out}
        kept.update(PYTHONPATH=str(package), **environment)
        command = [sys.executable, "-B", "-c", PROGRAM]
        return subprocess.run(command, cwd=self.folder, env=kept, capture_output=True, text=True)

    def finds(self, place, package, **environment):
        run = self.run_in(package, **environment)
        self.assertEqual((run.stdout.strip(), run.stderr), (str(place), ""))

    def test_the_order_of_places(self):
        package = self.package_in("repository", "bindings", "python")
        system = self.put_library("system", "libwave_plan.so.0")
        path = {"LD_LIBRARY_PATH": str(system.parent)}
        self.finds("libwave_plan.so.0", package, **path)
        repository = self.put_library("repository", "target", "staticlib", "libwave_plan.so")
        self.finds(repository.resolve(), package, **path)
        beside = self.put_library("repository", "bindings", "python", "wave_plan", "libwave_plan.so")
        self.finds(beside.resolve(), package, **path)
        named = self.put_library("elsewhere.so")
        self.finds(named, package, WAVE_PLAN_LIBRARY=str(named), **path)

    def test_a_missing_library_is_told(self):
        package = self.package_in("alone")
        beside = {"WAVE_PLAN_LIBRARY": str(self.folder / "none.so")}
        for environment, named in (({}, "libwave_plan.so.0"), (beside, "none.so")):
            run = self.run_in(package, **environment)
            self.assertEqual((run.returncode, run.stdout), (1, ""))
            last = run.stderr.splitlines()[-1]
            self.assertRegex(last, "^ImportError: the wave plan library cannot be loaded: .*make shared.*WAVE_PLAN_LIB")
            self.assertIn(named, last)

    def test_the_wheel_is_the_package(self):
        name = wheel_backend.build_wheel(str(self.folder))
        with ZipFile(self.folder / name) as wheel:
            wheel.extractall(self.folder / "installed")
            record = wheel.read("wave_plan-0.1.0.dist-info/RECORD").decode().splitlines()
            self.assertEqual([line.split(",")[0] for line in record], wheel.namelist())
        sources = {path.name for path in (PACKAGE_FOLDER / "wave_plan").glob("*.py")} | {"py.typed"}
        installed = {path.name for path in (self.folder / "installed" / "wave_plan").iterdir()}
        self.assertEqual(installed - {"libwave_plan.so"}, sources)
        run = self.run_in(self.folder / "installed", WAVE_PLAN_LIBRARY=str(loaded().resolve()))
        self.assertEqual(run.stderr, "")


class ReadmeTest(unittest.TestCase):
    def test_the_example(self):
        failed, tried = doctest.testfile(str(PACKAGE_FOLDER / "README.md"), module_relative=False)
        self.assertEqual((failed, tried > 5), (0, True))


if __name__ == "__main__":
    unittest.main()
