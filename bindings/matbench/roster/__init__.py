"""Rosters from spreadsheets: wishes of people for shifts, and limits of both.

    from matbench import roster

    request = roster.read_request("wishes.csv", "limits.csv")   # or frames of pandas
    best = roster.solve(request)
    print(roster.words(best))                                   # tables of people and of shifts
    roster.picture(best)                                        # an SVG

`python3 -m matbench roster --help` says what the tables may have. A table that is not taken is an
InputFault, which says where, and what is taken.
"""
from __future__ import annotations

from matbench.faults import InputFault
from matbench.roster.costs import Cost, costs_of
from matbench.roster.model import PersonLimit, Request, Shift, ShiftLimit, Wish
from matbench.roster.picture import picture
from matbench.roster.raising import Change, what_if
from matbench.roster.reading import read_request, with_last
from matbench.roster.showing import (changes_table, json_text, people_table, shifts_table, told,
                                     wishes_table, words)
from matbench.roster.second import second_rosters
from matbench.roster.solving import Roster, solve
from matbench.roster.writing import write_request

__all__ = ["Change", "Cost", "InputFault", "PersonLimit", "Request", "Roster", "Shift",
           "ShiftLimit", "Wish", "changes_table", "costs_of", "json_text", "people_table", "picture",
           "read_request", "second_rosters", "shifts_table", "solve", "told", "what_if",
           "wishes_table", "with_last", "words", "write_request"]
