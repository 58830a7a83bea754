"""python3 -m matbench: commands for planners, on top of the functions of the package.

  python3 -m matbench roster WISHES LIMITS     a roster from two spreadsheets
  python3 -m matbench limits DESC .. LIMITS    a plan that keeps further limits, such as hours
  python3 -m matbench truss ..                 whether a frame or a truss is rigid
  python3 -m matbench plan DESC                the best plan, with what must be in it or must not
  python3 -m matbench second-best DESC         the best plan that differs
  python3 -m matbench one-more DESC            what one more place in each limit gains
  python3 -m matbench few-changes DESC LAST    plans that change little of a last one
  python3 -m matbench links LINKS ROOT         a network with each link in both directions
  python3 -m matbench supplies NETWORK         the cheapest two supplies that share no link
  python3 -m matbench failures NETWORK         how many links of a network may fail
  python3 -m matbench names DESC < ANSWER      an answer in the names of its description

Each has --help, which says what it reads and writes. The exit status is 0, or 1 where what was
asked for is not so, or 2 where what was given is not taken; a note on standard error then says why.
"""
from __future__ import annotations

import importlib
import sys
from typing import TYPE_CHECKING

from matbench.command_lines import DONE, NOT_TAKEN, run, write
from matbench.commands import version

if TYPE_CHECKING:
    from collections.abc import Sequence

#: The module of each command.
COMMANDS = {
    "roster": "matbench.roster.command", "limits": "matbench.limits.command",
    "truss": "matbench.truss.command", "plan": "matbench.plans",
    "second-best": "matbench.second_best", "one-more": "matbench.one_more",
    "few-changes": "matbench.few_changes",
    "links": "matbench.links", "supplies": "matbench.supplies",
    "failures": "matbench.failures", "names": "matbench.names"}


def _command(name: str, words: Sequence[str]) -> int:
    """Runs a command by its name."""
    module = importlib.import_module(COMMANDS[name])
    return int(module.main(words))


def _tell_version(_: Sequence[str]) -> int:
    """Writes the version of the program."""
    write(version() + "\n")
    return DONE


def _tell_help(words: Sequence[str]) -> int:
    """Writes what commands there are."""
    write(__doc__ or "")
    return DONE if words else NOT_TAKEN


def main(words: Sequence[str]) -> int:
    """Runs the command that the first word names, and answers the exit status."""
    if not words or words[0] in ("-h", "--help", "help"):
        return run("--help", _tell_help, words)
    if words[0] == "--version":
        return run("--version", _tell_version, [])
    if words[0] not in COMMANDS:
        print(f"matbench: {words[0]} is no command here; these are: {', '.join(COMMANDS)}."
              " python3 -m matbench --help says more", file=sys.stderr)
        return NOT_TAKEN
    return run(words[0], lambda rest: _command(words[0], rest), words[1:])


if __name__ == "__main__":
    sys.exit(main(sys.argv[1:]))
