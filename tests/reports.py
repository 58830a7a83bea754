#!/usr/bin/env python3
"""Measures answers in words and pictures at 500 elements: `reports.py [N] [PROGRAM]`, at the top of
the repository.

For each case of `table.py` and each command with an answer that is checked, with names of 32 bytes
for the elements and the vertices, the table has the seconds and the peak memory in MB of `check`,
of `--tell` and of `--picture`, and the bytes of both texts. Each text has to stay below the bound
of docs/REPORTS.md; each line of words has at most 96 bytes, but for one of a single word; each
picture has to be read by an XML parser (expat), and to be one `svg` of shapes and texts, without
scripts, styles and links. What is not so is printed. The last line is `N passed, M failed`, which
counts answers; the status is 1 if one failed. The program is crates/mat_main/out/mat_main if none
is named. It needs GNU `time` (/usr/bin/time).
"""
import os
import re
import sys
import tempfile
from xml.parsers import expat

sys.path.insert(0, os.path.join(os.path.dirname(os.path.dirname(os.path.abspath(__file__))),
                                'bench'))
from table import CASES, described, measured, saved  # noqa: E402


def with_long_names(program, path, folder):
    """The file of a case with names of 32 bytes."""
    text = measured(program, ['convert', path])[0].decode()
    named = os.path.join(folder, 'named.txt')
    with open(named, 'w', encoding='ascii') as to:
        to.write(re.sub(r'\b[ev][0-9]+\b', lambda name: name.group().ljust(32, '-'), text))
    return named


def bounds(n):
    """The most bytes of a text in words and of a picture of n elements and as many vertices."""
    return 20 * n * n + 1550 * n + 20_000, 100 * n * n + 4500 * n + 60_000


#: The elements of a picture: shapes, texts and titles, and the head of an arrow.
SHAPES = {'svg', 'g', 'defs', 'marker', 'path', 'rect', 'circle', 'text', 'title'}


def is_told(name, value):
    """Whether an attribute says how a shape looks, and links, restyles and runs nothing."""
    is_bare = not name.endswith('href') and not name.startswith('on')
    return is_bare and name not in ('style', 'class') and 'url(' not in value.replace('url(#', '')


def is_picture(text):
    """Whether a parser reads it, and it is one `svg` of shapes and texts alone."""
    found, attributes = [], []

    def begin(name, given):
        found.append(name)
        attributes.extend(given.items())

    parser = expat.ParserCreate()
    parser.StartElementHandler = begin
    try:
        parser.Parse(text, True)
    except expat.ExpatError as fault:
        print(fault)
        return False
    has_shapes = found.count('svg') == 1 and SHAPES.issuperset(found)
    return has_shapes and all(is_told(*it) for it in attributes)


def faults(told, drawn, n):
    """What is wrong with a text in words and with a picture."""
    most_told, most_drawn = bounds(n)
    wide = [line for line in told.decode().splitlines() if len(line) > 96 and ' ' in line.strip()]
    return ([f'{len(told)} bytes in words'] * (len(told) > most_told)
            + [f'{len(drawn)} bytes of a picture'] * (len(drawn) > most_drawn)
            + [f'a line of {len(line)} bytes: {line}' for line in wide[:1]]
            + ['no XML of shapes alone'] * (not is_picture(drawn)))


def is_right(program, name, command, n, folder):
    """Prints the row of a case, and what is wrong with its texts; whether nothing is."""
    try:
        path = with_long_names(program, described(name, n, folder), folder)
        answer = saved(folder, 'answer', measured(program, command + [path])[0])
        runs = [measured(program, words + [path, answer])
                for words in (['check'], ['--tell'], ['--picture'])]
    except SystemExit as fault:
        print(f'{name} {" ".join(command)}: {fault}')
        return False
    cells = [f'{seconds:.2f} ({memory:.0f})' for _, seconds, memory in runs]
    told, drawn = runs[1][0], runs[2][0]
    print('|', ' | '.join([name, ' '.join(command), *cells, f'{len(told):,}', f'{len(drawn):,}']),
          '|', flush=True)
    found = faults(told, drawn, n)
    print(*(f'{name} {" ".join(command)}: {fault}\n' for fault in found), sep='', end='')
    return not found


def main():
    words = sys.argv[1:]
    n = int(words.pop(0)) if words and words[0].isdigit() else 500
    program = words[0] if words else 'crates/mat_main/out/mat_main'
    for needed in (program, '/usr/bin/time'):
        if not os.access(needed, os.X_OK):
            sys.exit(f'reports.py: {needed}: there is no such program')
    print('| case | command | `check`: seconds (MB) | `--tell` | `--picture` | bytes in words '
          '| bytes of the picture |')
    print('|---|---|---|---|---|---|---|')
    with tempfile.TemporaryDirectory() as folder:
        told = [case for case in CASES if case[1][0] != 'cuts']
        passed = sum(is_right(program, name, command, n, folder) for name, command in told)
    print(f'{passed} passed, {len(told) - passed} failed')
    sys.exit(0 if passed == len(told) else 1)


if __name__ == '__main__':
    main()
