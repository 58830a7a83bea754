"""Progress on standard error, for what takes longer than two seconds."""
from __future__ import annotations

import os
import sys
import time
from typing import TYPE_CHECKING

if TYPE_CHECKING:
    from typing import TextIO

#: Seconds before the first line, and at least between two lines of what is no terminal.
FIRST, BETWEEN = 2.0, 10.0
#: The environment variable that silences progress.
QUIET = "MATBENCH_QUIET"
#: Seconds at least between two lines that are written over one another.
OVER = 0.2


class Progress:
    """Tells what is going on, as a line on standard error. Nothing is told in the first two
    seconds, or at all if the variable MATBENCH_QUIET is set. On a terminal each line is written
    over the last one, and goes away at the end.

    Used as `with Progress("limits") as progress: .. progress.tell("12 of 40 solved")`; the name
    stands in front of each line."""

    def __init__(self, name: str, stream: TextIO | None = None, is_silent: bool = False):
        self._name, self._is_silent = name, is_silent or bool(os.environ.get(QUIET))
        self._stream = sys.stderr if stream is None else stream
        self._is_terminal = self._stream.isatty()
        self._began, self._last, self._has_line = time.monotonic(), float("-inf"), False

    @property
    def seconds(self) -> float:
        """How long it has taken so far."""
        return time.monotonic() - self._began

    def tell(self, what: str) -> None:
        """Tells this, if it is time for it."""
        now = time.monotonic()
        between = OVER if self._is_terminal else BETWEEN
        if self._is_silent or now - self._began < FIRST or now - self._last < between:
            return
        self._last = now
        line = f"matbench {self._name}: {what}, {now - self._began:.0f} s"
        self._write(f"\r\033[K{line}" if self._is_terminal else f"{line}\n")
        self._has_line = self._is_terminal

    def close(self) -> None:
        """Removes the line of a terminal."""
        if self._has_line:
            self._write("\r\033[K")
            self._has_line = False

    def _write(self, text: str) -> None:
        """Writes to the stream. One that is closed is left alone."""
        try:
            self._stream.write(text)
            self._stream.flush()
        except (OSError, ValueError):
            self._is_silent = True

    def __enter__(self) -> Progress:
        return self

    def __exit__(self, *_: object) -> None:
        self.close()
