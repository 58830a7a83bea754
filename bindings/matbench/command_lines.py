"""What the commands of `python3 -m matbench` share: their words, how they write, and how they end.

A command is a module with a function main(words) that answers an exit status: 0, or 1 where what
was asked for is not so (as a proof that is not right), or 2 where what was given is not taken."""
from __future__ import annotations

import argparse
import os
import sys
from pathlib import Path
from typing import TYPE_CHECKING

from matbench.faults import InputFault
from matbench.refusals import MatbenchError, NoLibrary

if TYPE_CHECKING:
    from collections.abc import Callable, Sequence

#: The statuses of a command.
DONE, NOT_SO, NOT_TAKEN, INTERRUPTED = 0, 1, 2, 130


def parser_of(name: str, about: str, examples: str = "") -> argparse.ArgumentParser:
    """A parser for the words of a command, whose --help says what it is about, and examples."""
    return argparse.ArgumentParser(
        prog=f"python3 -m matbench {name}", description=about, epilog=examples,
        formatter_class=argparse.RawDescriptionHelpFormatter)


def write(text: str, path: str | None = None) -> None:
    """Writes a text in UTF-8 to a file, or to standard output where none is named. Raises
    InputFault where it cannot be written."""
    if path is not None:
        try:
            Path(path).write_bytes(text.encode())
        except (OSError, ValueError) as error:
            raise InputFault(f"{path} cannot be written: {reason_of(error)}") from error
        return
    sys.stdout.flush()
    sys.stdout.buffer.write(text.encode("utf-8", "surrogateescape"))
    sys.stdout.flush()


def reason_of(error: BaseException) -> str:
    """Why the system refuses a file, in words."""
    return getattr(error, "strerror", None) or str(error)


def _leave_output() -> None:
    """Leaves standard output, whose reader has gone, without a further error."""
    try:
        os.dup2(os.open(os.devnull, os.O_WRONLY), sys.stdout.fileno())
    except (OSError, ValueError):
        pass


def told_of(error: BaseException) -> str:
    """What is told of an error that ends a command."""
    if isinstance(error, NoLibrary):
        return f"matbench is not here: {error}"
    if isinstance(error, MemoryError):
        return "there is not enough memory"
    if isinstance(error, RecursionError):
        return "this is nested too deeply"
    if isinstance(error, OSError) and error.filename:
        return f"{error.filename}: {reason_of(error)}"
    return str(error)


def run(name: str, command: Callable[[Sequence[str]], int], words: Sequence[str]) -> int:
    """Runs a command and answers its status. What it raises for what a person gave, for the system
    and for a call that is refused is told in one line on standard error."""
    try:
        status = command(words)
        sys.stdout.flush()
        return status
    except BrokenPipeError:
        _leave_output()
        return DONE
    except KeyboardInterrupt:
        print(f"matbench {name}: interrupted", file=sys.stderr)
        return INTERRUPTED
    except (InputFault, MatbenchError, OSError, MemoryError, RecursionError, TimeoutError) as error:
        print(f"matbench {name}: {told_of(error)}", file=sys.stderr)
        return NOT_TAKEN
