"""Builds the wheel of the package covetrivet, for pip (PEP 517), by the standard library alone.

The version is the repository's, from CHANGELOG.md. So the folder is installed from a checkout.
"""
from __future__ import annotations

import base64
import hashlib
import re
import zipfile
from pathlib import Path

HERE = Path(__file__).resolve().parent
CHANGES = HERE.parents[1] / "CHANGELOG.md"
METADATA = """\
Metadata-Version: 2.1
Name: covetrivet
Version: {version}
Summary: Covetrivet, a queued transaction manager: as a child process, or as its C library for threads
License: MIT OR Apache-2.0
Requires-Python: >=3.10
Classifier: Operating System :: POSIX
Classifier: Typing :: Typed
"""
WHEEL = "Wheel-Version: 1.0\nGenerator: wheel_of_checkout\nRoot-Is-Purelib: true\nTag: py3-none-any\n"
SCRIPTS = "[console_scripts]\ncovetrivet = covetrivet.__main__:main\n"


def version() -> str:
    text = CHANGES.read_text(encoding="utf-8") if CHANGES.is_file() else ""
    found = re.search(r"(?m)^## (\d+\.\d+\.\d+)", text)
    if not found:
        raise SystemExit(f"No version is in {CHANGES}: install clients/python from a checkout of Covetrivet.")
    return found[1]


def build_wheel(folder: str, _settings: object = None, _metadata: object = None) -> str:
    """Writes the wheel into the folder, and returns its name."""
    info = f"covetrivet-{version()}.dist-info"
    sources = sorted(it for it in (HERE / "covetrivet").iterdir() if it.suffix in (".py", ".typed"))
    files = {f"covetrivet/{it.name}": it.read_bytes() for it in sources}
    files[f"{info}/METADATA"] = METADATA.format(version=version()).encode()
    files[f"{info}/WHEEL"] = WHEEL.encode()
    files[f"{info}/entry_points.txt"] = SCRIPTS.encode()
    files[f"{info}/RECORD"] = record(files, f"{info}/RECORD")
    name = f"covetrivet-{version()}-py3-none-any.whl"
    with zipfile.ZipFile(Path(folder) / name, "w", zipfile.ZIP_DEFLATED) as wheel:
        for path, content in files.items():
            wheel.writestr(zipfile.ZipInfo(path), content)
    return name


def record(files: dict[str, bytes], itself: str) -> bytes:
    """Returns the list of all files, each with its sum and size."""
    lines = []
    for path, content in files.items():
        summed = base64.urlsafe_b64encode(hashlib.sha256(content).digest()).rstrip(b"=").decode()
        lines.append(f"{path},sha256={summed},{len(content)}\n")
    return "".join([*lines, f"{itself},,\n"]).encode()
