"""Descriptions of problems: their texts, and what their numbers stand for."""
from __future__ import annotations

import os
import re
from collections.abc import Hashable, Iterable, Sequence
from dataclasses import dataclass
from typing import TYPE_CHECKING, Any

from matbench.refusals import BadDescription, TooLong

if TYPE_CHECKING:
    from typing import TypeAlias

#: A description has at most so many elements, vertices, colours, rows and columns.
MOST = 500
#: A list has at most so many matroids, and so has a union.
MOST_MATROIDS = 64
#: The bytes that a description or a list of jobs may have, and a certificate or a witness.
MOST_OF_DESCRIPTION, MOST_OF_CERTIFICATE = 4_194_304, 67_108_864
#: A text as a function takes it: itself, its bytes, or a path to its file.
Text: TypeAlias = "str | bytes | os.PathLike[str]"


@dataclass(frozen=True)
class Description:
    """A problem: its text, and what stands in answers for its elements, vertices and colours, in
    the order of their numbers. None stands for the numbers themselves."""

    text: bytes
    elements: Sequence[Hashable] | None = None
    vertices: Sequence[Hashable] | None = None
    colours: Sequence[Hashable] | None = None

    @classmethod
    def of(cls, problem: Problem) -> Description:
        """The description of a text or of a file. Its names are those of the lines `elements` and
        `vertices`."""
        if isinstance(problem, Description):
            return problem
        text = bytes_of(problem, MOST_OF_DESCRIPTION)
        if not text.startswith(b"matroids 2\n"):
            return cls(text)
        names = {}
        for line in text.split(b"\n", 4)[2:4]:
            word, *rest = line.decode("latin1").split(" ")
            names[word] = tuple(rest)
        return cls(text, names.get("elements"), names.get("vertices"))


#: What a description is given as: its text, a path to its file, or a Description.
Problem: TypeAlias = "Text | Description"


def _read(path: os.PathLike[str], most: int) -> bytes:
    """The bytes of a file, of which at most one more than `most` are read."""
    with open(path, "rb") as file:
        text = file.read(most + 1)
    if len(text) > most:
        sentence = f"{os.fspath(path)} has more than {most:,} bytes"
        raise TooLong(TooLong.status, "refused: too long", sentence)
    return text


def bytes_of(text: Text, most: int) -> bytes:
    """The bytes of a text. A file may have at most so many. A character that is not ASCII, and a
    str that is too long, stay for the program to refuse."""
    if isinstance(text, os.PathLike):
        return _read(text, most)
    if isinstance(text, str):
        return text.encode()
    if isinstance(text, (bytes, bytearray, memoryview)):
        return bytes(text)
    makers = ""
    if hasattr(text, "edges"):
        makers = ": graph_description and the like make a Description of a graph"
    kind = type(text).__name__
    raise TypeError(f"a text, its bytes, or a path is wanted here, and not a {kind}{makers}")


def labels_of(labels: Sequence[Hashable] | None, numbers: Iterable[str]) -> tuple[Any, ...]:
    """What stands in answers for these numbers."""
    return tuple(int(it) if labels is None else labels[int(it)] for it in numbers)


def names_of(letter: str, words: Iterable[str]) -> list[str]:
    """Names for things: these words, with _ for a space, where they are names and all different,
    else a letter and their numbers."""
    found = [word.replace(" ", "_") for word in words]
    are_names = all(len(word) <= 32 and re.fullmatch("[!-~]+", word) for word in found)
    if are_names and len(set(found)) == len(found):
        return found
    return [f"{letter}{place}" for place in range(len(found))]


def out_of_range(sentence: str, line: int) -> BadDescription:
    """What the program would say of a number out of its range in this line, with a sentence."""
    note = f"refused: description 5 NumberRange line {line}"
    return BadDescription(BadDescription.status, note, sentence)
