"""python3 -m matbench roster: a roster from two spreadsheets."""
from __future__ import annotations

import sys
from fractions import Fraction
from pathlib import Path
from typing import TYPE_CHECKING

from matbench.command_lines import DONE, parser_of, write
from matbench.faults import InputFault
from matbench.limits.proofs import write_proof
from matbench.limits.solving import SECONDS
from matbench.progress import Progress
from matbench.roster.changing import changed_rosters, changed_table, of_at_most
from matbench.roster.costs import SECONDS as COST_SECONDS
from matbench.roster.costs import costs_of
from matbench.roster.folders import elements_table, how_to_check
from matbench.roster.picture import picture
from matbench.roster.raising import what_if
from matbench.roster.reading import read_request, with_last
from matbench.roster.showing import json_text, second_text, spelled, told, wishes_table, words
from matbench.roster.second import second_rosters
from matbench.roster.solving import solve
from matbench.roster.writing import MORE, write_request
from matbench.tables import Table

if TYPE_CHECKING:
    import argparse
    from collections.abc import Sequence

    from matbench.roster.changing import Changed
    from matbench.roster.costs import Cost
    from matbench.roster.model import Request
    from matbench.roster.raising import Change
    from matbench.roster.solving import Roster
    from matbench.roster.writing import Written

ABOUT = """\
Makes the best roster from two tables, and proves that none is better.

WISHES has a line for each wish, with the columns
  person, shift   who, and which shift
  gain            what the wish gains: a number, with a decimal comma or point
and it may have the columns
  day             the day of the shift; nobody works twice on a day, unless a limit says otherwise
  week            the week of the shift
  hours           how many hours the shift takes
  kind            a word for limits within shifts and of people, as night or senior
  must            yes: the wish has to be granted, if any roster can
  never           yes: the wish must not be granted
  last            yes: the wish was granted last time; of equal gains the fewest changes win

LIMITS has a line for each shift and each person, with the columns
  name            a person or a shift ('early' for each shift of this name, or 'Mon early' for one)
  most            how many at most: people in the shift, or shifts of the person
and it may have the columns
  least           how many a shift needs, if it can have them
  week, day       how often the person works at most in each week and on each day
  hours           how many hours the person works at most in all
  kind            the line is for wishes of this kind alone: at most, or at least, so many seniors
                  in a shift; at most so many nights of a person

More than 500 elements (a wish of a shift with a least number is two) need the column week; then,
and where limits cross (nights of a person over weeks) or hours are limited, the roster is the best
that is found within --seconds, and it is said whether it is proved best, or how far a better one
may be above it.

Tables are read as spreadsheets save them (CSV in UTF-8, UTF-16 or Western Windows; commas,
semicolons or tabs; sep=; in front). Names may be in any script. Yes is x, yes, ja, oui, si, 1 and
the like.
"""
EXAMPLES = """\
examples:
  python3 -m matbench roster examples/wishes.csv examples/limits.csv
  python3 -m matbench roster wishes.csv limits.csv --one-more --picture roster.svg
  python3 -m matbench roster wishes.csv limits.csv --format csv --output roster.csv
  python3 -m matbench roster new_wishes.csv limits.csv --last roster.csv
  python3 -m matbench roster new_wishes.csv limits.csv --last roster.csv --changes 2
  python3 -m matbench roster wishes.csv limits.csv --proof FOLDER
"""


def _parser() -> argparse.ArgumentParser:
    """The words of the command."""
    parser = parser_of("roster", ABOUT, EXAMPLES)
    parser.add_argument("wishes", metavar="WISHES")
    parser.add_argument("limits", metavar="LIMITS")
    parser.add_argument("--size", type=int, metavar="K", help="grant exactly K wishes")
    parser.add_argument("--seconds", type=float, default=SECONDS, metavar="T",
                        help="search for some T seconds at most, where a search is needed"
                             f" ({SECONDS:.0f}); with --one-more so long for each limit")
    parser.add_argument("--last", metavar="ROSTER",
                        help="a roster of last time, as --format csv writes it: what changes is"
                             " told, and of rosters of equal gain the one of fewest changes is taken")
    parser.add_argument("--few-changes", action="store_true",
                        help="tell too the rosters that are best where each change costs so much,"
                             " up to the one of fewest changes (--last, or a column last)")
    parser.add_argument("--changes", type=int, metavar="N",
                        help="a roster with at most N changes against the last one, the best of"
                             " those of --few-changes, and what no such roster gains more than")
    parser.add_argument("--one-more", action="store_true",
                        help="tell too what one more place in each limit brings, and who works then")
    parser.add_argument("--second-best", action="store_true",
                        help="tell too the best roster that differs, and by what")
    parser.add_argument("--tell", action="store_true",
                        help="tell too why no roster is better, in words that can be counted after")
    parser.add_argument("--format", choices=["table", "csv", "json"], default="table",
                        help="a table for people (the default), CSV with a line for each wish, or"
                             " JSON")
    parser.add_argument("--output", metavar="FILE", help="write to FILE")
    parser.add_argument("--picture", metavar="FILE", help="draw the roster too, as an SVG")
    parser.add_argument("--proof", metavar="FOLDER",
                        help="write the description and the certificate too, which `matbench check`"
                             " judges")
    parser.add_argument("--description", action="store_true",
                        help="write the description for the program, and do not solve it")
    return parser


def _description(written: Written) -> str:
    """The description of a request that is one."""
    if len(written.texts) > 1 or written.further:
        raise InputFault("this request is no single description: --proof FOLDER writes what it is"
                         " made of, and `python3 -m matbench limits FOLDER/roster*.txt"
                         " FOLDER/limits.csv` plans it")
    return written.texts[0]


def _bare(name: str) -> str:
    """The name of an element without what stands behind that of a second one."""
    return name[:-len(MORE)] if name.endswith(MORE) else name


def _is_otherwise(written: Written, request: Request) -> bool:
    """Whether a description has other numbers than the tables, or other names but for spaces."""
    wishes = [request.wishes[it.wish] for it in written.elements]
    return written.scale > 1 or any(
        _bare(it.name) != f"{wish.person}.{wish.shift.title}".replace(" ", "_")
        for it, wish in zip(written.elements, wishes))


def _write_description(request: Request, path: str | None) -> None:
    """Writes the description, with a note where its names or numbers are others."""
    written = write_request(request)
    write(_description(written), path)
    if _is_otherwise(written, request):
        print("matbench roster: names are of ASCII in the description, and numbers whole. --proof"
              " FOLDER writes it with elements.csv beside it: plan, second-best, one-more,"
              " few-changes and limits then answer in the names and numbers of your tables",
              file=sys.stderr)


def _write_proof(folder: str, roster: Roster) -> None:
    """Writes the descriptions and the certificate, or the further limits and their proof."""
    try:
        Path(folder).mkdir(parents=True, exist_ok=True)
    except OSError as error:
        raise InputFault(f"{folder} cannot be made: {error.strerror}") from error
    for number, text in enumerate(roster.written.texts):
        write(text, f"{folder}/roster{number}.txt")
    write(elements_table(roster).csv(), f"{folder}/elements.csv")
    for answer in roster.answers:
        write(answer.certificate, f"{folder}/roster0.answer")
    if roster.outcome is not None:
        write(further_table(roster).csv(), f"{folder}/limits.csv")
        write_proof(roster.outcome, folder)
        texts = " ".join(f"{folder}/roster{it}.txt" for it in range(len(roster.written.texts)))
        print(f"matbench roster: the proof is checked by python3 -m matbench limits {texts}"
              f" {folder}/limits.csv --verify {folder}", file=sys.stderr)


def further_table(roster: Roster) -> Table:
    """The further limits of a roster, as `python3 -m matbench limits` takes them."""
    elements = roster.written.elements
    rows = [[it.name, spelled(Fraction(it.most, it.scale)), elements[each].name,
             spelled(Fraction(it.amount(each), it.scale))]
            for it in roster.written.further for each in sorted(it.members)]
    return Table(["limit", "most", "element", "amount"], rows)


def _text(roster: Roster, changes: list[Change] | None, others: list[Roster] | None,
          costs: list[Cost], few: list[Changed] | None, options: argparse.Namespace) -> str:
    """What is printed."""
    if options.format == "csv":
        return wishes_table(roster).csv()
    if options.format == "json":
        return json_text(roster, changes, others, costs,
                         None if few is None else changed_table(few).records())
    second = "" if others is None else "\n" + second_text(roster, others)
    second += "" if few is None else "\n" + changed_table(few).text()
    return words(roster, changes, costs) + second + ("\n" + told(roster) if options.tell else "")


def _request(options: argparse.Namespace) -> Request:
    """What the two tables ask for."""
    request = read_request(options.wishes, options.limits)
    return with_last(request, options.last) if options.last else request


def main(given: Sequence[str]) -> int:
    """Runs the command, and answers its exit status."""
    options = _parser().parse_args(given)
    if options.changes is not None and (options.one_more or options.second_best or options.tell
                                        or options.proof):
        raise InputFault("--one-more, --second-best, --tell and --proof are of the best roster:"
                         " they do not go with --changes")
    request = _request(options)
    if options.description:
        _write_description(request, options.output)
        return DONE
    with Progress("roster") as progress:
        roster = solve(request, options.size, progress, options.seconds)
        changes = what_if(roster, progress, options.seconds) if options.one_more else None
        others = second_rosters(roster, progress) if options.second_best else None
        costs = [] if options.format == "csv" else \
            costs_of(roster, progress, min(options.seconds, COST_SECONDS))
        has_few = options.few_changes or options.changes is not None
        few = changed_rosters(roster, progress) if has_few else None
    if few is not None and options.changes is not None:
        roster, costs = of_at_most(few, options.changes), []
    write(_text(roster, changes, others, costs, few if options.few_changes else None, options),
          options.output)
    if options.picture:
        write(picture(roster), options.picture)
    if options.proof:
        _write_proof(options.proof, roster)
        print(f"matbench roster: this checks the proof: {how_to_check(roster, options.proof)}",
              file=sys.stderr)
    return DONE
