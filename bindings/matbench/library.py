"""The library libmatbench.so: where it is looked for, and its one function."""
from __future__ import annotations

import ctypes
import functools
import os
from pathlib import Path

from matbench.refusals import NoLibrary

NAME = "libmatbench.so"
#: The environment variable that names the library, in place of the folders that are looked into.
VARIABLE = "MATBENCH_LIBRARY"


class File(ctypes.Structure):
    """The matbench_file of matbench.h."""

    _fields_ = [("name", ctypes.c_char_p), ("bytes", ctypes.c_char_p),
                ("length", ctypes.c_size_t)]


class Buffer(ctypes.Structure):
    """The matbench_buffer of matbench.h."""

    _fields_ = [("bytes", ctypes.c_void_p), ("room", ctypes.c_size_t),
                ("length", ctypes.c_size_t)]


def _places() -> list[Path]:
    """Where the library may be: in the package, as in a wheel, beside it, or in out/ beside it, as
    in a checkout."""
    package = Path(__file__).absolute().parent
    return [folder / NAME for folder in (package, package.parent, package.parent / "out")]


def named() -> Path | None:
    """The library that the environment variable names, or None. Raises NoLibrary where there is no
    such file."""
    path = os.environ.get(VARIABLE)
    if path and not os.path.exists(path):
        raise NoLibrary(f"the environment variable {VARIABLE} names {path}, and there is no such"
                        " file")
    return Path(path) if path else None


def found() -> Path | None:
    """The library that is named, or stands where it may be, or None."""
    return named() or next((place for place in _places() if place.exists()), None)


def _find() -> Path:
    path = found()
    if path:
        return path
    looked = ", ".join(str(place.parent) for place in _places())
    raise NoLibrary(f"there is no {NAME} in {looked}. The wheel of matbench has it inside;"
                    f" bindings/build.sh of a checkout builds it; {VARIABLE} names one that is"
                    " elsewhere. The program does as well: MATBENCH_PROGRAM names it, or it is"
                    " the command matbench on the search path, or ./matbench of the checkout that"
                    " the package is in")


@functools.lru_cache(maxsize=None)
def load() -> ctypes.CDLL:
    """The library, which is loaded at the first call. Raises NoLibrary where it cannot be."""
    path = _find()
    try:
        library = ctypes.CDLL(str(path))
        library.matbench_call.restype = ctypes.c_int
    except OSError as error:
        raise NoLibrary(f"{path} cannot be loaded: it is for Linux with glibc on x86-64"
                        f" ({error})") from error
    except AttributeError as error:
        raise NoLibrary(f"{path} is not the library of matbench: it has no matbench_call") \
            from error
    return library
