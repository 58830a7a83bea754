"""The archive for C: headers, static libraries and what pkg-config reads. The same inputs give the
same bytes."""
from __future__ import annotations

import io
import lzma
import tarfile
from pathlib import Path

from inputs import BINDINGS, Built, read

#: The time of all files: 1980-01-01, as in the wheel.
TIME = 315_532_800
#: Each library, what it is, and what its programs are linked with besides.
LIBRARIES = {
    "matbench": ("The program matbench as a function", " -pthread"),
    "matbench_line": ("The proved function of matbench over memory of the caller", "")}
#: What pkg-config reads of a library. The folder may be anywhere.
PKG_CONFIG = """\
prefix=${{pcfiledir}}/../..
includedir=${{prefix}}/include
libdir=${{prefix}}/lib

Name: {name}
Description: {what}
Version: {version}
Cflags: -I${{includedir}}
Libs: ${{libdir}}/lib{name}.a{more}
"""


def _files(built: Built) -> dict[str, bytes]:
    """The files of the archive, by their names in its folder."""
    files = {"README.txt": read(BINDINGS / "packing" / "archive.txt")}
    for name, (what, more) in LIBRARIES.items():
        files[f"include/{name}.h"] = read(built.folder / f"{name}.h")
        files[f"lib/lib{name}.a"] = read(built.folder / f"lib{name}.a")
        text = PKG_CONFIG.format(name=name, what=what, version=built.version, more=more)
        files[f"lib/pkgconfig/{name}.pc"] = text.encode()
    return files


def _entry(name: str, mode: int) -> tarfile.TarInfo:
    entry = tarfile.TarInfo(name)
    entry.mtime, entry.mode = TIME, mode
    return entry


def _tar(folder: str, files: dict[str, bytes]) -> bytes:
    """A tar file of one folder with these files."""
    folders = {str(parent) for name in files for parent in Path(folder, name).parents} - {"."}
    content = {f"{folder}/{name}": it for name, it in files.items()}
    packed = io.BytesIO()
    with tarfile.open(fileobj=packed, mode="w", format=tarfile.USTAR_FORMAT) as tar:
        for name in sorted([*folders, *content]):
            if name in folders:
                entry = _entry(name, 0o755)
                entry.type = tarfile.DIRTYPE
                tar.addfile(entry)
            else:
                entry = _entry(name, 0o644)
                entry.size = len(content[name])
                tar.addfile(entry, io.BytesIO(content[name]))
    return packed.getvalue()


def make_archive(built: Built, folder: Path) -> Path:
    """Makes the archive in a folder, and answers where it is."""
    tar = _tar(f"matbench-c-{built.version}", _files(built))
    path = folder / f"matbench-c-{built.version}-x86_64-linux.tar.xz"
    path.write_bytes(lzma.compress(tar, preset=9 | lzma.PRESET_EXTREME))
    return path
