#!/usr/bin/env python3
"""How the time of each command grows with the number of elements: `growth.py [PROGRAM]`, at the top
of the repository.

For each case of `table.py`, and for `sample`, a row has the milliseconds at 60, 200 and 500
elements (the best of fifteen runs on the clock, less those of `--version`); the exponent p of the
power n^p that fits them, by least squares on the logarithms at seven sizes, of which those with
less than 0.4 ms are left out; and the seconds that 5,000 elements would take by it, those at 500
times 10^p. Then the same of `check` on the answer, and of the bytes of the answer. There is no fit
through fewer than four sizes, or where it explains less than nine tenths of the variance. Run it
ahead of other work (`chrt -r 50 python3 bench/growth.py`), or the figures say little. The program
is crates/mat_main/out/mat_main where none is named.
"""
import math
import sys
import tempfile

from compare import run
from table import CASES, SAMPLES, described, saved

SIZES = (60, 90, 130, 200, 300, 400, 500)
RUNS = 15
LEAST = 0.0004
FEWEST = 4


def timed(program, words, runs=RUNS):
    """The output and the least seconds of some runs."""
    outputs, seconds = zip(*(run(program, words) for _ in range(runs)))
    return outputs[-1], min(seconds)


def exponent(values, least):
    """The slope of a line through the logarithms of sizes and values, or none where too few values
    are large enough or they lie far from a line."""
    logs = [(math.log(size), math.log(value)) for size, value in zip(SIZES, values)
            if value >= least]
    if len(logs) < FEWEST:
        return None
    x0, y0 = (sum(column) / len(logs) for column in zip(*logs))
    both = sum((x - x0) * (y - y0) for x, y in logs)
    of_x, of_y = (sum((z - z0) ** 2 for z in column) for column, z0 in zip(zip(*logs), (x0, y0)))
    return both / of_x if of_y > 0 and both ** 2 >= 0.9 * of_x * of_y else None


def rounded(number):
    """A number with two digits that count."""
    digits = float(f'{number:.2g}')
    return f'{digits:,.0f}' if digits >= 10 else f'{digits:.6f}'.rstrip('0').rstrip('.')


def cells(values, sizes, least, unit, unit_then):
    """The values at some sizes in one unit, the exponent, and the value at 5,000 in another."""
    p = exponent(values, least)
    shown = [rounded(values[SIZES.index(size)] / unit) for size in sizes]
    return shown + ([f'{p:.1f}', rounded(values[-1] * 10 ** p / unit_then)] if p is not None
                    else ['', ''])


def row(program, start, name, command):
    """The cells of a case."""
    seconds, judged, bytes_of = [], [], []
    for size in SIZES:
        with tempfile.TemporaryDirectory() as folder:
            if not name:
                seconds.append(timed(program, [*command, str(size), '7'])[1] - start)
                continue
            path = described(name, size, folder)
            out, took = timed(program, [*command, path])
            seconds.append(took - start)
            bytes_of.append(len(out))
            if command[0] != 'cuts':
                judged.append(timed(program, ['check', path, saved(folder, 'answer', out)])[1]
                              - start)
    return (cells(seconds, (60, 200, 500), LEAST, 0.001, 1)
            + (cells(judged, (500,), LEAST, 0.001, 1) if judged else [''] * 3)
            + (cells(bytes_of, (500,), 1, 1e3, 1e6) if bytes_of else [''] * 3))


def main():
    program = sys.argv[1] if len(sys.argv) > 1 else 'crates/mat_main/out/mat_main'
    start = timed(program, ['--version'], 100)[1]
    print(f'A call of --version takes {start * 1000:.1f} ms.\n')
    print('| case | command | ms at 60 | 200 | 500 | p | s at 5,000 | `check`, ms at 500 | p '
          '| s at 5,000 | kB at 500 | p | MB at 5,000 |')
    print('|---|---|---|---|---|---|---|---|---|---|---|---|---|')
    for name, command in CASES + [('', ['sample', kind]) for kind in SAMPLES]:
        print(f'| `{name}` |' if name else '| |', f'`{" ".join(command)}` |',
              ' | '.join(row(program, start, name, command)), '|', flush=True)


if __name__ == '__main__':
    main()
