"""The program as a command, for calls where there is no library: where it is looked for, and how a
call with files in memory is one of it."""
from __future__ import annotations

import os
import shutil
import subprocess
import sys
import tempfile
from pathlib import Path
from typing import TYPE_CHECKING

from matbench.refusals import NoLibrary

if TYPE_CHECKING:
    from collections.abc import Mapping, Sequence

#: The environment variable that names the program.
VARIABLE = "MATBENCH_PROGRAM"
#: The status of a call whose output has no room.
_NO_ROOM = 6


def named() -> str | None:
    """The program that the environment variable names, or None. Raises NoLibrary where there is no
    such program."""
    path = os.environ.get(VARIABLE)
    if not path:
        return None
    found = shutil.which(path)
    if not found:
        raise NoLibrary(f"the environment variable {VARIABLE} names {path}, and there is no such"
                        " program")
    return os.path.abspath(found)


def found() -> str | None:
    """The program that is named, or is on the search path, or is in the checkout that this package
    is in, where its launcher puts it; or None. Raises NoLibrary where the launcher cannot."""
    top = Path(__file__).absolute().parent.parent.parent
    built = top / "crates/mat_main/out/mat_main"
    return named() or shutil.which("matbench") or shutil.which(str(built)) or _set_out(top, built)


def _set_out(top: Path, built: Path) -> str | None:
    """The program of a checkout, after its launcher has unpacked the released one, as at the first
    `./matbench`; the launcher where it can unpack it for a single call alone. None where this is no
    checkout. Nothing is proved or built: the launcher finds no `rt`."""
    launcher = top / "matbench"
    if not (top / "release/CONTENTS").is_file() or not os.access(launcher, os.X_OK):
        return None
    folders = [it for it in os.get_exec_path() if not os.path.exists(os.path.join(it, "rt"))]
    try:
        done = subprocess.run([str(launcher), "--version"], stdin=subprocess.DEVNULL,
                              capture_output=True, check=False,
                              env={**os.environ, "PATH": os.pathsep.join(folders)})
    except OSError as error:
        raise NoLibrary(f"{launcher} does not run here: {error.strerror}") from error
    told = done.stderr.decode("utf-8", "replace")
    if done.returncode:
        raise NoLibrary(f"{launcher} has put no program at hand, as it was started without rt; start"
                        " it by hand where it is to prove and build one. It says:"
                        f" {' '.join(told.split())[:500]}")
    sys.stderr.write(told)
    return shutil.which(str(built)) or str(launcher)


def _write_files(folder: str, files: Mapping[str, bytes]) -> None:
    """Writes the files of a call into a folder. Raises ValueError where a name leads out of it."""
    for name, content in files.items():
        if not name or name in (".", "..", "-") or "/" in name:
            raise ValueError(f"the program takes no file of the name {name!r} here")
        Path(folder, name).write_bytes(content)


def run(path: str, words: Sequence[str], files: Mapping[str, bytes], room: int,
        timeout: float | None) -> tuple[int, bytes, str]:
    """Runs the program in a folder of its own, which holds these files alone: its status, its
    output of at most so many bytes, and its note. It is ended after `timeout` seconds, which raises
    TimeoutError, and by Ctrl-C."""
    with tempfile.TemporaryDirectory(prefix="matbench-") as folder:
        _write_files(folder, files)
        try:
            done = subprocess.run([path, *words], cwd=folder, stdin=subprocess.DEVNULL,
                                  capture_output=True, timeout=timeout, check=False)
        except subprocess.TimeoutExpired:
            raise TimeoutError(f"the call has not ended within {timeout} seconds") from None
        except OSError as error:
            raise NoLibrary(f"{path} does not run here: {error.strerror}") from error
    if len(done.stdout) > room:
        return _NO_ROOM, done.stdout[:room], "refused: write fault"
    lines = done.stderr.decode("utf-8", "replace").splitlines()
    return done.returncode, done.stdout, lines[-1] if done.returncode and lines else ""
