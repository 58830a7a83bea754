"""python3 -m matbench limits: a plan that keeps further limits, and a bound that none exceeds."""
from __future__ import annotations

import sys
from pathlib import Path
from typing import TYPE_CHECKING

from matbench.command_lines import DONE, parser_of, write
from matbench.faults import InputFault
from matbench.limits.problem import Joined
from matbench.limits.proofs import verify, write_proof
from matbench.limits.reading import read_limits
from matbench.limits.real_names import real_names
from matbench.limits.showing import outcome_text, proved_text
from matbench.limits.solving import PARTS, SECONDS, SOLVES, solve
from matbench.progress import Progress
from matbench.tables import FORMS

if TYPE_CHECKING:
    import argparse
    from collections.abc import Sequence

ABOUT = """\
Finds a plan for descriptions of form `pair` that keeps further limits too, which add up hours,
money or nights, and a bound that no such plan exceeds.

Each DESC is a description, with names if there are several. They share nothing but the further
limits, and each has up to 500 elements: so weeks are joined. LIMITS is a table with the columns
  limit     the name of a further limit
  most      how much at most; in one line of each limit at least
  element   an element, or a pattern such as Ada.*night
  amount    what the element counts, from 0; 1 where the cell is empty
Of all elements of a limit that are chosen the amounts add up to at most `most`. A pattern that fits
a wish X fits its copies X.must, X.may and X.more too. One that fits none counts nothing, and is
told; where none of the table fits, it is refused. For example:
  limit,most,element,amount
  nights of Ada,2,Ada.*night,
  hours of Ada,40,Ada.*early,8
  hours of Ada,,Ada.*night,10

`best` is said only if the bound meets the plan: then no plan gains more. Otherwise the gap is
told, and a better plan may exist, or not.

How it is proved: each further limit gets a price, and each element is charged what it counts. The
best plan with the charged weights, and the prices of all that the limits allow, are together at
least the gain of every plan that keeps all limits. --proof writes the charged descriptions and
their certificates, which `matbench check` judges, and the sum in bound.md; --verify does it all,
without the search.

Where a description lies in a folder that `roster --proof` wrote, elements have the names of the
wishes too, as in Jörg.*Nacht, and the answer has the names and the numbers of the roster.
"""
EXAMPLES = """\
examples:
  python3 -m matbench limits week1.txt week2.txt nights.csv --proof FOLDER
  python3 -m matbench limits week1.txt week2.txt nights.csv --verify FOLDER
  python3 -m matbench limits people.txt hours.csv --size 40 --format json
"""


def _parser() -> argparse.ArgumentParser:
    """The words of the command."""
    parser = parser_of("limits", ABOUT, EXAMPLES)
    parser.add_argument("descriptions", metavar="DESC", nargs="+")
    parser.add_argument("limits", metavar="LIMITS")
    parser.add_argument("--size", type=int, metavar="K", help="plans of exactly K elements")
    parser.add_argument("--seconds", type=float, default=SECONDS, metavar="T",
                        help=f"search for some T seconds at most ({SECONDS:.0f})")
    parser.add_argument("--solves", type=int, default=SOLVES, metavar="S",
                        help=f"at most S solves for prices ({SOLVES})")
    parser.add_argument("--parts", type=int, default=PARTS, metavar="S",
                        help=f"then at most S solves for parts of all plans ({PARTS})")
    parser.add_argument("--plain", action="store_true",
                        help="do not let HiGHS look for plans, where scipy is there")
    parser.add_argument("--proof", metavar="FOLDER", help="write the proof of the bound")
    parser.add_argument("--verify", metavar="FOLDER", help="check a proof; nothing is searched")
    parser.add_argument("--format", choices=FORMS, default="table",
                        help="text (the default), CSV with the elements of the plan, or JSON")
    parser.add_argument("--output", metavar="FILE", help="write to FILE")
    return parser


def main(given: Sequence[str]) -> int:
    """Runs the command, and answers its exit status."""
    options = _parser().parse_args(given)
    if min(options.seconds, options.solves - 1, options.parts) < 0:
        raise InputFault("--seconds and --parts are from 0, and --solves is from 1")
    joined = Joined([Path(it) for it in options.descriptions], options.descriptions)
    real, notes = real_names(options.descriptions, joined), list[str]()
    limits = read_limits(options.limits, joined, real.names if real else (), notes)
    for note in notes:
        print(f"matbench limits: {note}", file=sys.stderr)
    with Progress("limits") as progress:
        if options.verify:
            proved = verify(options.verify, joined, limits, progress)
            write(proved_text(proved, joined, real), options.output)
            return DONE
        outcome = solve(joined, limits, options.size, options.seconds, options.solves,
                        options.parts, not options.plain, progress)
        if options.proof:
            write_proof(outcome, options.proof, progress)
    write(outcome_text(outcome, real, options.format), options.output)
    return DONE
