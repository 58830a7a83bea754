"""The wheel: the package of Python with the library inside. The same inputs give the same bytes."""
from __future__ import annotations

import base64
import hashlib
import zipfile
from pathlib import Path

from inputs import BINDINGS, Built, read
from libraries import glibc_of

#: The oldest version of glibc for which pip knows a name.
OLDEST_NAMED = (2, 5)
#: The earliest time that a zip file can have.
TIME = (1980, 1, 1, 0, 0, 0)
METADATA = """\
Metadata-Version: 2.1
Name: matbench
Version: {version}
Summary: Weighted optimisation over matroids, with answers that are proved best
Requires-Python: >=3.8
Classifier: Operating System :: POSIX :: Linux
Classifier: Programming Language :: Python :: 3
Classifier: Typing :: Typed
Description-Content-Type: text/markdown

"""
WHEEL = """\
Wheel-Version: 1.0
Generator: matbench
Root-Is-Purelib: false
Tag: {tag}
"""


def tag_of(library: Path) -> str:
    """The tag of a wheel with this library, which names the oldest glibc that it works with."""
    major, minor = max(glibc_of(library), OLDEST_NAMED)
    return f"py3-none-manylinux_{major}_{minor}_x86_64"


def _files(built: Built, tag: str) -> dict[str, bytes]:
    """The files of the wheel but its list of them, by their names and in their order."""
    package = BINDINGS / "matbench"
    modules = sorted(path.relative_to(package).as_posix() for path in package.rglob("*.py"))
    files = {f"matbench/{name}": read(package / name) for name in [*modules, "py.typed"]}
    files["matbench/libmatbench.so"] = read(built.folder / "libmatbench.so")
    described = METADATA.format(version=built.version).encode()
    info = f"matbench-{built.version}.dist-info"
    files[f"{info}/METADATA"] = described + read(BINDINGS / "packing" / "wheel.md")
    files[f"{info}/WHEEL"] = WHEEL.format(tag=tag).encode()
    return files


def _record(files: dict[str, bytes], own_name: str) -> bytes:
    """The list of the files, with their checksums and lengths."""
    lines = []
    for name, content in files.items():
        checksum = base64.urlsafe_b64encode(hashlib.sha256(content).digest()).rstrip(b"=").decode()
        lines.append(f"{name},sha256={checksum},{len(content)}\n")
    return "".join([*lines, f"{own_name},,\n"]).encode()


def make_wheel(built: Built, folder: Path) -> Path:
    """Makes the wheel in a folder, and answers where it is."""
    tag = tag_of(built.folder / "libmatbench.so")
    files = _files(built, tag)
    own_name = f"matbench-{built.version}.dist-info/RECORD"
    files[own_name] = _record(files, own_name)
    path = folder / f"matbench-{built.version}-{tag}.whl"
    with zipfile.ZipFile(path, "w") as wheel:
        for name, content in files.items():
            entry = zipfile.ZipInfo(name, TIME)
            entry.create_system, entry.external_attr = 3, 0o100644 << 16
            wheel.writestr(entry, content, zipfile.ZIP_DEFLATED, compresslevel=9)
    return path
