"""Further limits that add up hours, money or nights: a plan that keeps them, and a bound that no
plan exceeds.

    from matbench import limits

    joined = limits.Joined([week1, week2])             # texts or files of form `pair`
    further = limits.read_limits("limits.csv", joined)  # or Limit(name, most, {element: amount})
    outcome = limits.solve(joined, further)
    outcome.names, outcome.gain, outcome.bound, outcome.is_best
    limits.write_proof(outcome, "proof")
    limits.verify("proof", joined, further)

`python3 -m matbench limits --help` says what the tables have, and what the proof is.
"""
from __future__ import annotations

from matbench.faults import InputFault
from matbench.limits.problem import Joined, Limit
from matbench.limits.proofs import Proved, verify, write_proof
from matbench.limits.reading import read_limits
from matbench.limits.solving import Outcome, solve

__all__ = ["InputFault", "Joined", "Limit", "Outcome", "Proved", "read_limits", "solve", "verify",
           "write_proof"]
