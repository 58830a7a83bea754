"""Answers in words and as pictures."""
from __future__ import annotations

from collections.abc import Mapping

from matbench.calls import call, done


def shown(word: str, files: Mapping[str, bytes], timeout: float | None, *texts: object) -> str:
    """What the program writes for the word --tell or --picture of a description, the file f, and a
    right answer, the file c."""
    return done(call([word, "f", "c"], files, timeout=timeout), *texts)
