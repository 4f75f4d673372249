"""Packs the package into a wheel for `pip install`, which calls build_wheel (PEP 517). Standard library only.

The shared library goes along if it is built, so that the installed package finds it beside itself.
"""

from __future__ import annotations

import base64
import hashlib
import re
import sysconfig
from pathlib import Path
from typing import Dict, Optional
from zipfile import ZIP_DEFLATED, ZipFile

HERE = Path(__file__).resolve().parent
LIBRARY = HERE.parents[1] / "target" / "staticlib" / "libwave_plan.so"


def build_wheel(
    wheel_directory: str, config_settings: Optional[object] = None, metadata_directory: Optional[str] = None
) -> str:
    """Writes the wheel into the folder. The answer is its name."""
    project = _project()
    name = f"{project['name'].replace('-', '_')}-{project['version']}"
    files = _package()
    tag = f"py3-none-{_platform()}"
    files[f"{name}.dist-info/METADATA"] = _lines(
        "Metadata-Version: 2.1",
        f"Name: {project['name']}",
        f"Version: {project['version']}",
        f"Summary: {project['description']}",
        f"Requires-Python: {project['requires-python']}",
    )
    files[f"{name}.dist-info/WHEEL"] = _lines("Wheel-Version: 1.0", "Root-Is-Purelib: false", f"Tag: {tag}")
    record = f"{name}.dist-info/RECORD"
    files[record] = _lines(*(f"{path},{_digest(data)},{len(data)}" for path, data in files.items()), f"{record},,")
    with ZipFile(Path(wheel_directory) / f"{name}-{tag}.whl", "w", ZIP_DEFLATED) as wheel:
        for path, data in files.items():
            wheel.writestr(path, data)
    return f"{name}-{tag}.whl"


def _project() -> Dict[str, str]:
    """The texts of the table [project] of pyproject.toml, by a pattern: Python itself reads such files from 3.11 on."""
    table = (HERE / "pyproject.toml").read_text().split("[project]\n")[1].split("\n[")[0]
    return dict(re.findall(r'^([\w-]+) = "(.*)"$', table, flags=re.M))


def _package() -> Dict[str, bytes]:
    """The files of the package by their place in the wheel."""
    folder = HERE / "wave_plan"
    paths = [*sorted(folder.glob("*.py")), folder / "py.typed"]
    if LIBRARY.exists():
        paths.append(LIBRARY)
    return {f"wave_plan/{path.name}": path.read_bytes() for path in paths}


def _platform() -> str:
    return re.sub(r"[-.]", "_", sysconfig.get_platform()) if LIBRARY.exists() else "any"


def _lines(*lines: str) -> bytes:
    return "".join(f"{line}\n" for line in lines).encode()


def _digest(data: bytes) -> str:
    digest = base64.urlsafe_b64encode(hashlib.sha256(data).digest()).decode().rstrip("=")
    return f"sha256={digest}"
