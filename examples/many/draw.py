"""python3 examples/many/draw.py COUNT SIZE SEED FOLDER: draws COUNT problems of SIZE elements, and
prints a list of jobs.

The problems are those of `./matbench sample KIND SIZE SEED` for the numbers SEED, SEED + 1 and so
on, of the five kinds in turn (docs/FORMATS.md, Samples). FOLDER gets a file for each. A line of the
list has an id, the words of the command and the file, with a tab between them.
"""
import os
import sys

KINDS = (("pair", "intersect"), ("list", "union"), ("graph", "trees 2"), ("rooted", "arborescence"),
         ("table", "assign"))


class Draws:
    """The multiplicative generator 48271 modulo 2147483647."""

    def __init__(self, seed):
        self.state = seed

    def below(self, bound):
        """The next number, below a bound."""
        self.state = self.state * 48271 % 2147483647
        return self.state % bound

    def weight(self):
        """A weight from -1000 to 1000."""
        return self.below(2001) - 1000

    def ends(self, word, bound):
        """The line of an edge or an arc."""
        return f"{word} {self.below(bound)} {self.below(bound)}"


def pair(n, draws):
    """A graph, and a partition whose classes have the cap 1."""
    vertices, classes = n // 4 + 2, [[] for _ in range(n // 5 + 1)]
    edges, weights = [], []
    for element in range(n):
        edges.append(draws.ends("edge", vertices))
        classes[draws.below(len(classes))].append(element)
        weights.append(draws.weight())
    members = [" ".join(map(str, ["class", 1, *some])) for some in classes]
    return [f"pair {n}", " ".join(map(str, ["weights", *weights])), f"graphic {vertices}", *edges,
            f"partition {len(classes)}", *members]


def two_graphs(n, draws):
    """A list of two graphs."""
    vertices, first, second, weights = n // 4 + 2, [], [], []
    for _ in range(n):
        first.append(draws.ends("edge", vertices))
        second.append(draws.ends("edge", vertices))
        weights.append(draws.weight())
    graphs = [f"graphic {vertices}", *first, f"graphic {vertices}", *second]
    return [f"list {n} 2", " ".join(map(str, ["weights", *weights])), *graphs]


def graph(n, draws):
    """A graph."""
    vertices = n // 8 + 2
    return [f"graph {vertices} {n}", *(draws.ends("edge", vertices) for _ in range(n))]


def rooted(n, draws):
    """A directed graph with costs and the root 0."""
    vertices = n // 4 + 2
    return [f"rooted {vertices} {n} 0", *(f"{draws.ends('arc', vertices)} {draws.below(1001)}"
                                          for _ in range(n))]


def table(n, draws):
    """A table with weighted cells."""
    lines = n // 4 + 1
    return [f"table {lines} {lines} {n}", *(f"{draws.ends('cell', lines)} {draws.weight()}"
                                            for _ in range(n))]


def main():
    """Draws the problems."""
    if len(sys.argv) != 5 or not all(word.isdigit() for word in sys.argv[1:4]):
        sys.exit("usage: python3 examples/many/draw.py COUNT SIZE SEED FOLDER")
    count, size, seed = map(int, sys.argv[1:4])
    folder = sys.argv[4]
    os.makedirs(folder, exist_ok=True)
    makers = {"pair": pair, "list": two_graphs, "graph": graph, "rooted": rooted, "table": table}
    for number in range(count):
        kind, words = KINDS[number % len(KINDS)]
        name = os.path.join(folder, f"{kind}_{size}_{seed + number}.txt")
        with open(name, "w", encoding="ascii") as file:
            file.write("\n".join(["matroids 1", *makers[kind](size, Draws(seed + number)), "end"])
                       + "\n")
        print(f"{kind}_{seed + number}", words, name, sep="\t")


main()
