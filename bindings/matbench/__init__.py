"""matbench in this process: weighted optimisation over matroids, with answers that are proved best.

    import matbench

    answer = matbench.intersect(text)   # a description's text, a path to one, or a Description
    answer.best.weight                  # what the heaviest set gains
    answer.best.members                 # its elements: their names, or else numbers from 0
    answer.told()                       # the answer in words, and why there is none better
    answer.picture()                    # the answer as an SVG
    matbench.check(text, answer)        # whether the answer is right; true where it is

There is a function for each command of the program, which answers a dataclass, and an exception for
each way in which it refuses. docs/FORMATS.md has the formats and the words used here. Weights and
costs are whole numbers from -10^12 to 10^12 in whatever unit the description has, and a sum of them
is exact. A weight is an int, or a Weight where it has a second number, which breaks ties.

A Description is made of plain data by pair, listed, graph, rooted, coloured and table, and of a
graph of networkx by graph_description and the like. The classes Uniform to UnionOf are the kinds of
matroids for pair and listed.

The functions may be called in several threads at once, and a call leaves the other threads of
Python running. Ctrl-C in the main thread raises KeyboardInterrupt, and each function takes
`timeout`, a number of seconds after which it raises TimeoutError. The call itself goes on then in a
thread of its own until it ends, with its memory and a processor, and its answer is dropped: only
the end of the process ends it before.

The library is libmatbench.so in this folder, beside it or in out/ beside it, or the file that the
environment variable MATBENCH_LIBRARY names. The first call loads it. Where there is none, each call
runs the program: the one that MATBENCH_PROGRAM names, or matbench on the search path, or that of
the checkout that this package is in, which its ./matbench unpacks if need be. __version__
is the version of the program.

`python3 -m matbench --help` lists commands for planners.
"""
from __future__ import annotations

from typing import TYPE_CHECKING

from matbench.answers import (Answer, Arborescence, Covering, DisjointArborescences, Ladder, Level,
                              Packing, Price, PricedArborescence, Rung, Trees, Union, Verdict)
from matbench.batches import MOST_JOBS, batch
from matbench.calls import ROOM, Ended, call
from matbench.certificates import read_answer
from matbench.commands import (arborescence, assign, best, check, convert, cover, cuts, disjoint,
                               intersect, pack, picture, rainbow, sample, show, tell, trees, union,
                               verify, version, witness)
from matbench.descriptions import Description, Problem
from matbench.graphs import (coloured_description, forests_description, graph_description,
                             rooted_description, table_description)
from matbench.matroids import (Binary, Contract, Dual, Gammoid, Graphic, Laminar, Matroid,
                               Partition, Restrict, Transversal, Truncate, Uniform, UnionOf)
from matbench.problems import coloured, graph, listed, pair, rooted, table
from matbench.refusals import (BadCertificate, BadCost, BadDescription, BadList, BadWitness,
                               FaultyText, MatbenchError, NoLibrary, NotRight, OutOfMemory,
                               ReadFault, TooLong, UsageError, Unwitnessed, WriteFault, WrongShape)
from matbench.weights import Weight

__all__ = [
    "Answer", "Arborescence", "BadCertificate", "BadCost", "BadDescription", "BadList",
    "BadWitness", "Binary", "Contract", "Covering", "Description", "DisjointArborescences", "Dual",
    "Ended", "FaultyText", "Gammoid", "Graphic", "Ladder", "Laminar", "Level", "MOST_JOBS",
    "MatbenchError", "Matroid", "NoLibrary", "NotRight", "OutOfMemory", "Packing", "Partition",
    "Price", "PricedArborescence", "Problem", "ROOM", "ReadFault", "Restrict", "Rung", "TooLong",
    "Transversal", "Trees", "Truncate", "Uniform", "Union", "UnionOf", "Unwitnessed", "UsageError",
    "Verdict", "Weight", "WriteFault", "WrongShape", "arborescence", "assign", "batch", "best",
    "call", "check", "coloured", "coloured_description", "convert", "cover", "cuts", "disjoint",
    "forests_description", "graph", "graph_description", "intersect", "listed", "pack", "pair",
    "picture", "rainbow", "read_answer", "rooted", "rooted_description", "sample", "show", "table",
    "table_description", "tell", "trees", "union", "verify", "version", "witness"]

if TYPE_CHECKING:
    __version__: str
else:
    def __getattr__(name: str) -> str:
        """The version, which the library tells when it is asked for."""
        if name != "__version__":
            raise AttributeError(f"module {__name__!r} has no attribute {name!r}")
        try:
            return version().split(" ")[-1]
        except NoLibrary as error:
            raise AttributeError(f"the library tells the version, and {error}") from error
