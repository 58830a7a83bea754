#!/usr/bin/env python3
"""Compares two programs, such as those of two commits: `compare.py BEFORE AFTER [N [CASE ..]]`, at
the top of the repository.

For each case of `table.py` with N elements (500 where no number is given), the command and `check`
on its answer, a line of a table has the instructions of both programs in millions, which other work
on the machine does not change, how many times those of BEFORE the instructions of AFTER are, and
the seconds on the clock, the best of seven runs of each in turn. The instructions are counted by
valgrind (`callgrind`). Both programs read the same texts; each judges its own answer.
"""
import os
import re
import subprocess
import sys
import tempfile
import time

from table import CASES, described, saved

RUNS = 7


def instructions(program, words):
    """The millions of instructions of a run."""
    with tempfile.NamedTemporaryFile() as to:
        run = subprocess.run(['valgrind', '--tool=callgrind', f'--callgrind-out-file={to.name}',
                              program] + words, capture_output=True)
    counted = re.search(rb'Collected : (\d+)', run.stderr)
    if run.returncode != 0 or not counted:
        raise SystemExit(f'{program} {" ".join(words)} ends with {run.returncode} under valgrind')
    return int(counted.group(1)) / 1e6


def run(program, words):
    """The output of a run and its seconds."""
    begin = time.perf_counter()
    ended = subprocess.run([program] + words, capture_output=True)
    took = time.perf_counter() - begin
    if ended.returncode != 0:
        raise SystemExit(f'{program} {" ".join(words)} ends with {ended.returncode}')
    return ended.stdout, took


def row(programs, calls):
    """The cells of a line, where each program has its own words."""
    counts = [instructions(program, words) for program, words in zip(programs, calls)]
    seconds = [[], []]
    for _ in range(RUNS):
        for took, program, words in zip(seconds, programs, calls):
            took.append(run(program, words)[1])
    before, after = counts
    cells = [f'{before:,.0f}', f'{after:,.0f}', f'{after / before:.2f}']
    least = [min(took) for took in seconds]
    return ' | '.join(cells + [f'{it:.4f}' for it in least] + [f'{least[1] / least[0]:.2f}'])


def arguments():
    """The two programs, the number of elements, and the names of the cases, none where all are
    meant."""
    programs, rest = [os.path.abspath(program) for program in sys.argv[1:3]], sys.argv[3:]
    if len(programs) < 2 or rest and not rest[0].isdigit():
        raise SystemExit(__doc__)
    for name in rest[1:]:
        if name not in dict(CASES):
            raise SystemExit(f'there is no case {name}')
    return programs, int(rest[0]) if rest else 500, rest[1:]


def main():
    programs, count, chosen = arguments()
    print('| case | command | instructions before | after | ratio '
          '| seconds before | after | ratio |')
    print('|---|---|---|---|---|---|---|---|')
    with tempfile.TemporaryDirectory() as folder:
        for name, command in CASES:
            if chosen and name not in chosen:
                continue
            path = described(name, count, folder)
            solve = command + [path]
            print(f'| `{name}` | `{" ".join(command)}` | {row(programs, [solve, solve])} |',
                  flush=True)
            if command == ['cuts']:
                continue
            answers = [saved(folder, f'answer_{place}', run(program, solve)[0]) for place,
                       program in enumerate(programs)]
            checks = [['check', path, answer] for answer in answers]
            print(f'| | `check` | {row(programs, checks)} |', flush=True)


if __name__ == '__main__':
    main()
