#!/usr/bin/env python3
"""Draws the crates by floor, and the ways of a problem through them, as docs/crates.svg.

    docs/crates.py            prints the picture
    docs/crates.py --write    puts it into docs/crates.svg
    docs/crates.py --check    compares it with the one there; the last line is `N passed, M failed`

The floors, their headings and what uses what are those of crates.txt. This file adds a few words on
each crate, and the ways. A crate without words, words without a crate or longer than a box,
a crate that uses one of a later line, and a step of a way that no earlier step uses are errors.
"""
import os
import sys
from html import escape

TOP = os.path.dirname(os.path.dirname(os.path.realpath(__file__)))
PICTURE = 'docs/crates.svg'

WORDS = {
    'mat_sets': 'sets, weights, limits',
    'mat_laws': 'trait Matroid, laws',
    'mat_count': 'bounds on numbers',
    'mat_graphic': 'forests of a graph',
    'mat_gf2': 'binary columns',
    'mat_minors': 'dual, minors',
    'mat_union': 'unions of matroids',
    'mat_flow': 'disjoint paths',
    'mat_cuts': 'prices of vertex sets',
    'mat_packing': 'bases, covers, trees',
    'mat_linked': 'gammoids, matchings',
    'mat_branch': 'disjoint arborescences',
    'mat_any': 'any kind as one type',
    'mat_greedy': 'best set of each size',
    'mat_work': 'rows by fork and join',
    'mat_ticket': 'rows drawn by workers',
    'mat_exchange': 'exchanges, paths',
    'mat_split': 'two matroids, split',
    'mat_arbor': 'least arborescence',
    'mat_fronts': 'rainbow trees, tables',
    'mat_words': 'lines, words, numbers',
    'mat_problem': 'what a problem is',
    'mat_desc': 'descriptions',
    'mat_cert': 'answers, certificates',
    'mat_shelf': 'files and sinks',
    'mat_gen': 'samples',
    'mat_calls': 'test of single calls',
    'mat_witness': 'witnesses',
    'mat_right': 'what is right',
    'mat_check': 'judges an answer',
    'mat_solve': 'query to answer',
    'mat_summary': 'sums up a sample',
    'mat_command': 'words of a command',
    'mat_judge': 'reads, judges, refuses',
    'mat_verify': 'witnesses of files',
    'mat_facts': 'facts that suffice',
    'mat_text': 'paragraphs',
    'mat_reasons': 'reasons, counted',
    'mat_tell': 'answers in words',
    'mat_drawing': 'SVG',
    'mat_charts': 'charts and tables',
    'mat_picture': 'answers as pictures',
    'mat_top': 'run: the top call',
    'mat_report': '--tell, --picture',
    'mat_call': 'files in memory',
    'mat_c': 'library for C',
    'mat_program': 'the program as a call',
    'mat_main': 'main',
    'mat_teams': 'a kind of its own',
    'mat_trials': 'test of the top call',
    'mat_reports': 'test of reports',
}

RULE = ('A crate uses only crates of floors below, and of its own floor those to its left or in '
        'the row below.')

# Each way: its name, its colour, and its steps: a crate, and what happens there.
WAYS = [
    ('A command solves', '#0072B2', [
        ('mat_main', 'takes the words'),
        ('mat_program', 'opens the files and streams'),
        ('mat_top', 'run does what they ask for'),
        ('mat_command', 'reads the words'),
        ('mat_judge', 'asks for the file'),
        ('mat_shelf', 'gives its bytes'),
        ('mat_desc', 'reads the description'),
        ('mat_problem', 'is the problem'),
        ('mat_solve', 'chooses the solver'),
        ('mat_split', 'grows the ladder'),
        ('mat_exchange', 'finds the next path'),
        ('mat_any', 'answers for both matroids'),
        ('mat_cert', 'is the answer, and writes it'),
    ]),
    ('check judges', '#B24700', [
        ('mat_top', 'run, as above'),
        ('mat_judge', 'reads both files'),
        ('mat_desc', 'reads the description'),
        ('mat_cert', 'reads the certificate'),
        ('mat_check', 'tries the clauses in their order'),
        ('mat_greedy', 'finds the best of each half'),
    ]),
    ('--tell and --picture report', '#00795A', [
        ('mat_report', 'report judges as check does'),
        ('mat_tell', 'says it in sentences'),
        ('mat_reasons', 'has the reasons'),
        ('mat_text', 'fills the lines'),
        ('mat_picture', 'draws it'),
        ('mat_charts', 'has the charts'),
        ('mat_drawing', 'writes the markup'),
    ]),
]

BOX, TALL, GAP, EDGE, ACROSS = 148, 42, 10, 16, 6
HEAD, BETWEEN, LONGEST = 24, 14, 22
WIDTH = 2 * EDGE + 2 * GAP + ACROSS * (BOX + GAP) - GAP


def floors():
    """The floors, lowest first: a heading, and each crate with the crates here that it uses."""
    found, named = [], []
    with open(os.path.join(TOP, 'crates.txt'), encoding='utf-8') as it:
        for line in it.read().splitlines()[1:]:
            if line.startswith('#'):
                found.append((line.strip('# .'), []))
            elif line:
                head, _, uses = line.partition(':')
                found[-1][1].append((head.split()[0], uses.split()))
                named.append(head.split()[0])
    return [(head, [(crate, [it for it in uses if it in named]) for crate, uses in crates])
            for head, crates in found]


def errors(all_floors):
    """What does not fit crates.txt."""
    crates = [pair for _, floor in all_floors for pair in floor]
    uses = dict(crates)
    for at, (crate, below) in enumerate(crates):
        if crate not in WORDS:
            yield f'{crate} has no words in docs/crates.py'
        for it in below:
            if it not in [name for name, _ in crates[:at]]:
                yield f'{crate} uses {it}, which is no earlier line of crates.txt'
    for crate, words in WORDS.items():
        if len(words) > LONGEST:
            yield f'{crate} has more than {LONGEST} bytes of words'
        if crate not in uses:
            yield f'docs/crates.py has words on {crate}, which crates.txt does not have'
    for name, _, steps in WAYS:
        for at, (crate, _) in enumerate(steps):
            before = [it for it, _ in steps[:at]]
            if crate not in uses or at > 0 and not any(crate in uses[it] for it in before):
                yield f'{name}: no earlier step uses {crate}'


def text_of(left, at, words, **look):
    """One line of text."""
    marks = ''.join(f' {key.replace("_", "-")}="{value}"' for key, value in look.items())
    return f'<text x="{left}" y="{at}"{marks}>{escape(words)}</text>'


def badge(left, at, number, colour):
    """A number of a step in a circle."""
    return [f'<circle cx="{left}" cy="{at}" r="9" fill="{colour}"/>',
            text_of(left, at + 4, str(number), fill='#FFFFFF', font_size='11',
                    text_anchor='middle', font_weight='bold')]


def box(left, at, crate, uses):
    """A crate: its name, its words, what it uses, and the steps that it takes."""
    yield (f'<rect x="{left}" y="{at}" width="{BOX}" height="{TALL}" rx="4" fill="#FFFFFF" '
           f'stroke="#555555"><title>{crate} uses {", ".join(uses) or "no crate here"}</title>'
           '</rect>')
    yield text_of(left + 8, at + 18, crate, font_weight='bold')
    yield text_of(left + 8, at + 34, WORDS[crate], font_size='11', fill='#333333')
    right = left + BOX - 12
    for _, colour, steps in reversed(WAYS):
        for number, (step, _) in enumerate(steps, 1):
            if step == crate:
                yield from badge(right, at + 2, number, colour)
                right -= 21


def picture():
    """The picture's lines: the floors, highest first, and below them the ways."""
    lines, at = [text_of(EDGE, EDGE + 6, RULE, font_size='12', fill='#333333')], EDGE + 20
    for head, crates in reversed(floors()):
        rows = [crates[begin:begin + ACROSS] for begin in range(0, len(crates), ACROSS)]
        height = HEAD + len(rows) * (TALL + GAP) + 4
        lines.append(f'<rect x="{EDGE}" y="{at}" width="{WIDTH - 2 * EDGE}" height="{height}" '
                     'rx="6" fill="#EEF1F4"/>')
        lines.append(text_of(EDGE + GAP, at + 17, head, font_weight='bold', fill='#333333'))
        for row, some in enumerate(reversed(rows)):
            for column, (crate, uses) in enumerate(some):
                lines += box(EDGE + GAP + column * (BOX + GAP),
                             at + HEAD + 4 + row * (TALL + GAP), crate, uses)
        at += height + BETWEEN
    column = (WIDTH - 2 * EDGE) // len(WAYS)
    for number, (name, colour, steps) in enumerate(WAYS):
        left = EDGE + number * column
        lines.append(text_of(left, at + 14, name, font_weight='bold', fill=colour))
        for step, (crate, what) in enumerate(steps, 1):
            lines += badge(left + 10, at + 12 + step * 22, step, colour)
            lines.append(text_of(left + 26, at + 16 + step * 22, f'{crate}: {what}',
                                 font_size='11'))
    at += 34 + 22 * max(len(steps) for _, _, steps in WAYS)
    return [f'<svg xmlns="http://www.w3.org/2000/svg" width="{WIDTH}" height="{at}" '
            f'viewBox="0 0 {WIDTH} {at}" font-family="sans-serif" font-size="13">',
            f'<rect x="0" y="0" width="{WIDTH}" height="{at}" fill="#FFFFFF"/>', *lines, '</svg>']


def main():
    words = sys.argv[1:]
    if words not in ([], ['--write'], ['--check']):
        print(__doc__, file=sys.stderr)
        return 64
    wrong = list(errors(floors()))
    if wrong:
        print(*wrong, sep='\n')
        print(f'0 passed, {len(wrong)} failed')
        return 1
    drawn, path = '\n'.join(picture()) + '\n', os.path.join(TOP, PICTURE)
    if not words:
        print(drawn, end='')
        return 0
    if words == ['--write']:
        with open(path, 'w', encoding='utf-8') as it:
            it.write(drawn)
        return 0
    with open(path, encoding='utf-8') as it:
        is_same = it.read() == drawn
    if not is_same:
        print(f'{PICTURE} is not the picture of crates.txt: docs/crates.py --write makes it')
    print('1 passed, 0 failed' if is_same else '0 passed, 1 failed')
    return 0 if is_same else 1


if __name__ == '__main__':
    sys.exit(main())
