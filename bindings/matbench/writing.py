"""Writing a description of weighted elements line by line, each number held to its range."""
from __future__ import annotations

import operator
from collections.abc import Hashable, Iterable, Mapping, Sequence
from typing import Any

from matbench.descriptions import MOST, Description, names_of, out_of_range
from matbench.weights import pair_of, spelling

#: Each number of a weight is at most so far from 0.
MOST_WEIGHT = 10 ** 12


def _word_of(label: Hashable) -> str:
    """What an element is called: its own word, or those of a tuple with - between them."""
    return "-".join(map(str, label)) if isinstance(label, tuple) else str(label)


class Writer:
    """The lines of a description so far. Its elements are `labels`, or else numbers."""

    def __init__(self, form: str, count: int, labels: Sequence[Hashable] | None):
        self.lines = ["matroids 1" if labels is None else "matroids 2"]
        self.labels = labels
        self.count = self.number(count, "the number of elements", 0, MOST)
        self.add(form)
        if labels is None:
            self._words: dict[Any, str] = {place: str(place) for place in range(count)}
        else:
            names = names_of("e", map(_word_of, labels))
            self._words = dict(zip(labels, names))
            self.add("elements", *names)

    def add(self, *words: object) -> None:
        """Adds a line of these words."""
        self.lines.append(" ".join(map(str, words)))

    def number(self, value: Any, what: str, least: int, most: int) -> int:
        """A number of the next line, which has to be in its range."""
        try:
            found = operator.index(value)
        except TypeError:
            raise TypeError(f"{what} is an int, and not {value!r}") from None
        if not least <= found <= most:
            sentence = f"{what} is {found:,}, and has to be from {least:,} to {most:,}"
            raise out_of_range(sentence, len(self.lines) + 1)
        return found

    def weights(self, values: Iterable[Any]) -> None:
        """Adds the line of the weights."""
        words = []
        for value in values:
            words.append(spelling(value))
            for it in pair_of(value):
                self.number(int(it), "a number of a weight", -MOST_WEIGHT, MOST_WEIGHT)
        self.add("weights", *words)

    def words(self, elements: Iterable[Hashable]) -> list[str]:
        """The words of these elements."""
        found = list(elements)
        for it in found:
            if it not in self._words:
                raise ValueError(f"there is no element {it!r}")
        return [self._words[it] for it in found]

    def of_each(self, given: Mapping[Any, Any] | Sequence[Any], what: str) -> list[Any]:
        """What is given for each element: by the element, or in the order of the elements."""
        if len(given) != self.count:
            raise ValueError(f"there are {len(given)} {what} for {self.count} elements")
        if not isinstance(given, Mapping):
            return list(given)
        self.words(given)
        return [given[it] for it in self._words]

    def description(self) -> Description:
        """The description, which ends here."""
        text = "\n".join([*self.lines, "end", ""])
        return Description(text.encode(), self.labels)
