"""The edits that the prover or the compiler must refuse: where they stand, and what each makes of its crate.

crates/CRATE/must-fail/NAME.edit is an edit of CRATE that must not be proved: `rt ci` and `rt must-fail` try it. tests/must-not-compile/NAME.edit
names its crate in a line `crate:` and must not compile: tests/must-not-compile/run tries it. A line `file:` holds for the pairs `old:` and `new:`
after it. Each old text stands in its file exactly once, as the pairs before have left it. Other lines are comments.
"""
import re
from pathlib import Path

UNCOMPILED = Path("tests/must-not-compile")


class BadEdit(Exception):
    """An edit that cannot be made."""


class Edit:
    def __init__(self, path):
        self.path = path
        self.name = path.stem
        self.compiles = path.parent != UNCOMPILED
        self.text = path.read_text(encoding="utf-8")
        self.crate = path.parent.parent.name if self.compiles else re.search(r"^crate: (.*)$", self.text, re.M).group(1)

    def edited(self, root):
        """The files that the edit changes, by their paths in a crate that stands in `root`, with their texts afterwards."""
        sources, file, old, pairs = {}, None, "", 0
        for word, rest in self.lines():
            if word == "file":
                file = rest
                if not re.match(r"(src|specs|proofs)/", file) or ".." in file or not Path(root, file).is_file():
                    raise BadEdit(f"{self.path}: the crate has no source {file}")
                sources.setdefault(file, Path(root, file).read_text(encoding="utf-8"))
            elif word == "old":
                old = rest
            else:
                found = sources[file].count(old) if file and old else 0
                if found != 1:
                    raise BadEdit(f"{self.path}: its text stands {found} times in {file}: {old}")
                sources[file] = sources[file].replace(old, rest)
                old, pairs = "", pairs + 1
        if pairs == 0:
            raise BadEdit(f"{self.path}: it replaces nothing")
        return sources

    def lines(self):
        return re.findall(r"^(file|old|new):(?: (.*))?$", self.text, re.M)


def every_edit():
    return [Edit(f) for folder in sorted(Path("crates").glob("*/must-fail")) + [UNCOMPILED] for f in sorted(folder.glob("*.edit"))]
