"""What the wheel and the archive are made of: what bindings/build.sh built, and its version."""
from __future__ import annotations

import ctypes
import re
from dataclasses import dataclass
from pathlib import Path

BINDINGS = Path(__file__).resolve().parent.parent
#: The source that has the version, in a checkout.
SOURCE = BINDINGS.parent / "crates" / "mat_main" / "src" / "help.rt"


class Missing(Exception):
    """Something that is to be packed is missing, or is not of one version."""


@dataclass(frozen=True)
class Built:
    """What is built, all of one version: the folder that holds it, and the version."""

    folder: Path
    version: str


def read(path: Path) -> bytes:
    """The bytes of a file that is to be packed."""
    try:
        return path.read_bytes()
    except FileNotFoundError:
        raise Missing(f"{path} is missing: bindings/build.sh makes it") from None


class _Buffer(ctypes.Structure):
    _fields_ = [("bytes", ctypes.c_char_p), ("room", ctypes.c_size_t),
                ("length", ctypes.c_size_t)]


def _version_of_library(path: Path) -> str:
    """What a library answers to --version."""
    read(path)
    try:
        function = ctypes.CDLL(str(path)).matbench_call
    except (OSError, AttributeError) as error:
        raise Missing(f"{path} is not the library of matbench: {error}") from error
    output = _Buffer(bytes(100), 100, 0)
    words = (ctypes.c_char_p * 2)(b"--version", None)
    function(words, None, ctypes.c_size_t(0), ctypes.byref(output), None)
    found = re.match("matbench ([0-9.]+)\n", (output.bytes or b"").decode())
    if not found:
        raise Missing(f"{path} does not tell its version")
    return found[1]


def built() -> Built:
    """What bindings/build.sh built. Raises Missing where the source or a header is of another
    version than the library."""
    folder = BINDINGS / "out"
    version = _version_of_library(folder / "libmatbench.so")
    others = {folder / header: f'MATBENCH_VERSION "{version}"'
              for header in ("matbench.h", "matbench_line.h")}
    if SOURCE.exists():
        others[SOURCE] = f'VERSION: &str = "matbench {version}\\n"'
    for path, wanted in others.items():
        if wanted not in read(path).decode():
            raise Missing(f"the library in {folder} is of version {version}, and {path} is not:"
                          " bindings/build.sh builds both anew")
    return Built(folder, version)
