#!/usr/bin/env python3
"""Tests bench/costs.py over five small crates whose costs were worked out by hand, and
bench/seconds.py over provers that are stand-ins. Nothing is proved. The last line is
`N passed, M failed`. It takes some ten seconds.
"""
import os
import shutil
import subprocess
import sys
import tempfile

TOP = os.path.dirname(os.path.dirname(os.path.realpath(__file__)))
CRATES = '''# Lowest first.
low:
wide tests_may=Threads: low outside
side:
high: wide side
lone: low
'''
SECONDS = '''# Seconds.
low 10 - 5
wide 20 7 -
high 100 - 30
side 3 - -
'''
ROWS = '''| `low` | 10 |  | 5 | 3 | 130 | 172 | 130 |
| `wide` | 20 | 7 |  | 1 | 120 | 157 | 120 |
| `side` | 3 |  |  | 1 | 103 | 133 | 103 |
| `high` | 100 |  | 30 | 0 | 100 | 130 | 100 |
| `lone` |  |  |  | 0 | 0 | 0 | 0 |
'''
results = []


def tell(name, seen, wanted):
    """Notes whether what was seen is as it should be."""
    results.append(seen == wanted)
    print(f'ok: {name}' if seen == wanted else f'WRONG: {name}: {seen!r}, and not {wanted!r}')


def costs(folder, *words):
    """The status and the output of bench/costs.py in a folder."""
    run = subprocess.run([sys.executable, os.path.join(folder, 'bench/costs.py'), *words],
                         capture_output=True, text=True)
    return run.returncode, run.stdout


def written(path, text):
    os.makedirs(os.path.dirname(path), exist_ok=True)
    with open(path, 'w', encoding='utf-8') as to:
        to.write(text)


def try_costs(folder):
    """The table of the small crates."""
    os.makedirs(f'{folder}/bench')
    shutil.copy(f'{TOP}/bench/costs.py', f'{folder}/bench/')
    written(f'{folder}/crates.txt', CRATES)
    written(f'{folder}/launcher/seconds.txt', SECONDS)
    status, told = costs(folder)
    heads = ''.join(told.splitlines(keepends=True)[:2])
    tell('the table', (status, told.removeprefix(heads)), (0, ROWS))
    tell('a word that it does not know', costs(folder, '--other')[0], 64)


def try_seconds(folder):
    """Provers that take two seconds each: one of a proof, one of tests, and one of an edit."""
    prover = f'{folder}/rattle'
    shutil.copy(os.path.realpath(sys.executable), prover)
    burn = 'import time\nwhile time.process_time() < 2: pass'
    edit = f'{folder}/rt-edit-7-x'
    os.makedirs(edit)
    words = f"'{prover}' -ISc '{burn}' --crate-name"
    run = subprocess.run([sys.executable, f'{TOP}/bench/seconds.py', 'sh', '-c',
                          f"{words} low & {words} low --test; wait; cd '{edit}' && {words} wide; "
                          f"{words.replace('rattle', 'other')} high; exit 5"],
                         capture_output=True, text=True,
                         env={**os.environ, 'PYTHONHOME': sys.base_prefix})
    tell('its status is that of the command', run.returncode, 5)
    seen = [line.split() for line in run.stdout.splitlines()]
    near = [[cell if not cell.isdigit() else 'near' if 1 <= int(cell) <= 3 else cell
             for cell in line] for line in seen]
    tell('the seconds of each crate', near, [['low', 'near', 'near', '-'],
                                             ['wide', '-', '-', 'near']])


def main():
    with tempfile.TemporaryDirectory() as folder:
        try_costs(folder)
        try_seconds(folder)
    print(f'{results.count(True)} passed, {results.count(False)} failed')
    return 0 if all(results) else 1


if __name__ == '__main__':
    sys.exit(main())
