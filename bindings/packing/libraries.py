"""Which version of glibc a shared library needs, by what stands in it."""
from __future__ import annotations

import re
import struct
from collections.abc import Iterator
from pathlib import Path

from inputs import Missing, read

X86_64 = 62
#: The type of the section that lists the versions of other libraries that are needed.
NEEDED_VERSIONS = 0x6FFFFFFE


def _sections(library: bytes) -> list[tuple[int, int, int]]:
    """The sections of a library of 64 bits: type, place in the file, and the number of the section
    that has its names."""
    start, = struct.unpack_from("<Q", library, 40)
    size, count = struct.unpack_from("<HH", library, 58)
    found = []
    for place in range(start, start + size * count, size):
        kind, offset, link = struct.unpack_from("<4xI16xQ8xI", library, place)
        found.append((kind, offset, link))
    return found


def _name(library: bytes, place: int) -> str:
    return library[place:library.index(b"\0", place)].decode()


def needed_versions(library: bytes) -> Iterator[str]:
    """The versions that a library needs of others, such as GLIBC_2.3."""
    sections = _sections(library)
    for kind, place, link in sections:
        if kind != NEEDED_VERSIONS:
            continue
        names, more = sections[link][1], 1
        while more:
            count, first, more = struct.unpack_from("<2xH4xII", library, place)
            version = place + first
            for _ in range(count):
                name, following = struct.unpack_from("<8xII", library, version)
                yield _name(library, names + name)
                version += following
            place += more


def glibc_of(path: Path) -> tuple[int, int]:
    """The oldest version of glibc that has all that a library needs of others."""
    library = read(path)
    if library[:5] != b"\x7fELF\x02" or struct.unpack_from("<H", library, 18)[0] != X86_64:
        raise Missing(f"{path} is no library for x86-64")
    found = []
    for version in needed_versions(library):
        numbers = re.fullmatch(r"GLIBC_(\d+)\.(\d+)(\.\d+)?", version)
        if not numbers:
            raise Missing(f"{path} needs {version}, which no version of glibc alone has")
        found.append((int(numbers[1]), int(numbers[2])))
    if not found:
        raise Missing(f"{path} does not say which version of glibc it needs")
    return max(found)
