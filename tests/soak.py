#!/usr/bin/env python3
"""Runs random problems: `soak.py SECONDS SEED [PROGRAM]` or
`soak.py --problems COUNT SEED [PROGRAM]`, at the top of the repository.

Problems of every form, with matroids of every kind within one another, are solved by every command
that takes them, with one and with four workers; `check` has to say yes to each answer, and both
answers have to be the same bytes. Commands for other forms have to end with the status of a wrong
shape. Where both matroids are of kinds that have witnesses, `verify` has to say yes to the witness
of each rung. Then bytes, words and lines of the texts are changed, and `show`, `check` and `verify`
have to end with a status and a note that they can have. It ends with 1 and keeps the files at the
first run that ends otherwise, takes more than ten seconds, or has not ended after sixty, when it is
killed. With --problems it runs so many problems, however long they take; only a run that has not
ended after an hour fails. It prints how many runs of each command ended with each status, and last
`N passed, M failed`, which counts runs. The program is crates/mat_main/out/mat_main if none is
named.
"""
import collections
import os
import random
import re
import shutil
import subprocess
import sys
import tempfile
import time

COMMANDS = {'pair': ['intersect'], 'one': ['best', 'pack', 'cover', 'union'], 'list': ['union'],
            'graph': ['trees 1', 'trees 2', 'trees 3'],
            'rooted': ['arborescence', 'disjoint 1', 'disjoint 2', 'cuts'], 'coloured': ['rainbow'],
            'table': ['assign']}
EVERY = sorted({command for commands in COMMANDS.values() for command in commands})
WORD = '[A-Za-z]+'
NOTES = {0: '', 1: f'no {WORD} [0-9]+ [0-9]+\n', 2: 'refused: usage\n',
         3: f'refused: description [0-9]+ {WORD} line [0-9]+\n',
         4: f'refused: certificate [0-9]+ {WORD} line [0-9]+\n', 9: 'refused: wrong shape\n',
         11: 'refused: unwitnessed\n',
         12: f'refused: witness [0-9]+ {WORD} line [0-9]+\n', 13: 'refused: bad cost\n',
         14: 'refused: list line [0-9]+\n'}
SECONDS, LONGEST, AN_HOUR = 10, 60, 3600


def weight(numbers):
    """A weight, of any size and sometimes with a tie."""
    most = 10 ** numbers.choice((0, 1, 1, 2, 12))
    word = str(numbers.randint(-most, most))
    return word + (':' + str(numbers.choice((-3, -1, 1, 2, most))) if numbers.random() < .2 else '')


def chosen(numbers, n, chance=.5):
    """Some numbers below n, in any order."""
    members = [x for x in range(n) if numbers.random() < chance]
    numbers.shuffle(members)
    return members


def line(*words):
    return ' '.join(str(word) for word in words)


def partition(numbers, n):
    classes = [[] for _ in range(numbers.randint(1, 4))]
    for x in range(n):
        numbers.choice(classes).append(x)
    return [f'partition {len(classes)}'] + [line('class', numbers.randint(0, 3), *members)
                                            for members in classes]


def laminar(numbers, n):
    sets, parts = [], [list(range(n))]
    while parts:
        part = parts.pop()
        numbers.shuffle(part)
        sets.append(line('set', numbers.randint(0, 4), *part))
        at = numbers.randint(0, len(part))
        if 0 < at < len(part):
            parts += [part[:at], part[at:]]
    numbers.shuffle(sets)
    return [f'laminar {len(sets)}'] + sets


def graphic(numbers, n):
    vertices = numbers.randint(1, 6)
    return [f'graphic {vertices}'] + [line('edge', numbers.randrange(vertices),
                                           numbers.randrange(vertices)) for _ in range(n)]


def gf2(numbers, n):
    digits = numbers.randint(1, 5)
    return [f'gf2 {digits}'] + ['column ' + format(numbers.randrange(1 << digits), f'0{digits}b')
                                for _ in range(n)]


def transversal(numbers, n):
    sets = [line('set', *chosen(numbers, n)) for _ in range(numbers.randint(0, 5))]
    return [f'transversal {len(sets)}'] + sets


def gammoid(numbers, n):
    vertices = n + numbers.randint(1, 5)
    arcs = [line('arc', numbers.randrange(vertices), numbers.randrange(vertices))
            for _ in range(numbers.randint(0, 3 * vertices))]
    return ([f'gammoid {vertices} {len(arcs)}', line('sources', *chosen(numbers, vertices)),
             line('targets', *numbers.sample(range(vertices), n))]
            + arcs)


def matroid(numbers, n, depth=0):
    """The lines of a matroid of any kind."""
    kind = numbers.randrange(12 if depth < 4 else 7)
    if kind == 0:
        return [f'uniform {numbers.randint(0, n + 1)}']
    if kind <= 6:
        return (partition, laminar, graphic, gf2, transversal, gammoid)[kind - 1](numbers, n)
    if kind == 7:
        return ['dual'] + matroid(numbers, n, depth + 1)
    if kind == 8:
        return [f'truncate {numbers.randint(0, n)}'] + matroid(numbers, n, depth + 1)
    if kind == 9:
        return [line('restrict', *chosen(numbers, n, .8))] + matroid(numbers, n, depth + 1)
    if kind == 10:
        return [line('contract', *chosen(numbers, n, .2))] + matroid(numbers, n, depth + 1)
    count = numbers.randint(1, 3)
    return [f'union {count}'] + [text for _ in range(count)
                                 for text in matroid(numbers, n, depth + 2)]


def problem(numbers):
    """The form of a problem, and its text."""
    form, n = numbers.choice(sorted(COMMANDS)), numbers.choice((0, 1, 2, 4, 6, 8, 10, 14))
    weights = line('weights', *(weight(numbers) for _ in range(n)))
    vertices = numbers.randint(1, 7)
    ends = [line(numbers.randrange(vertices), numbers.randrange(vertices)) for _ in range(n)]
    if form == 'pair':
        body = [f'pair {n}', weights] + matroid(numbers, n) + matroid(numbers, n)
    elif form in ('one', 'list'):
        count = 1 if form == 'one' else numbers.randint(2, 4)
        body = [f'list {n} {count}', weights]
        body += [text for _ in range(count) for text in matroid(numbers, n)]
    elif form == 'graph':
        body = [f'graph {vertices} {n}'] + ['edge ' + pair for pair in ends]
    elif form == 'rooted':
        costs = [str(numbers.randint(0, 9)) if numbers.random() < .9 else weight(numbers)
                 for _ in range(n)]
        body = [f'rooted {vertices} {n} {numbers.randrange(vertices)}']
        body += [line('arc', pair, cost) for pair, cost in zip(ends, costs)]
    elif form == 'coloured':
        colours = numbers.randint(1, 6)
        body = [f'coloured {vertices} {n} {colours}']
        body += [line('edge', pair, numbers.randrange(colours), weight(numbers)) for pair in ends]
    else:
        body = [f'table {vertices} {vertices} {n}']
        body += [line('cell', pair, weight(numbers)) for pair in ends]
    return form, '\n'.join(['matroids 1'] + body + ['end', '']).encode()


def changed(numbers, text):
    """A text with a byte, a word or a line changed, left out, doubled or added."""
    what = numbers.randrange(6)
    if what == 0 and text:
        at = numbers.randrange(len(text))
        return text[:at] + bytes([numbers.randrange(256)]) + text[at + numbers.randrange(2):]
    if what == 1:
        return text[:numbers.randint(0, len(text))]
    lines = text.split(b'\n')
    at = numbers.randrange(len(lines))
    if what == 2:
        return b'\n'.join(lines[:at] + lines[at + 1:])
    if what == 3:
        return b'\n'.join(lines[:at] + [numbers.choice(lines)] + lines[at:])
    words = lines[at].split(b' ')
    place = numbers.randrange(len(words))
    words[place] = numbers.choice([b'0', b'1', b'-1', b'2', b'500', b'501', b'00', b'1:1', b'1:0',
                                   b'', words[place] + b' 1', b'end', b'x'])
    return b'\n'.join(lines[:at] + [b' '.join(words)] + lines[at + 1:])


class Soak:
    """The program, the folder of its files, what its runs ended with, and after how many seconds a
    run is too long, and killed."""

    def __init__(self, program, folder, seconds, longest):
        self.program, self.folder = os.path.abspath(program), folder
        self.ends = collections.Counter()
        self.seconds, self.longest = seconds, longest

    def write(self, name, text):
        with open(os.path.join(self.folder, name), 'wb') as to:
            to.write(text)

    def run(self, words, statuses):
        """The output of a run that has to end with one of these statuses."""
        begin = time.monotonic()
        try:
            run = subprocess.run([self.program] + words.split(), cwd=self.folder,
                                 capture_output=True, timeout=self.longest)
        except subprocess.TimeoutExpired:
            self.fail(f'{words}: not ended after {self.longest} s')
        took = time.monotonic() - begin
        note = run.stderr.decode('latin1')
        self.ends[words.split()[0], run.returncode] += 1
        has_output = bool(run.returncode and run.stdout)
        has_note = re.fullmatch(NOTES.get(run.returncode, ''), note)
        if run.returncode not in statuses or not has_note or has_output or took > self.seconds:
            self.fail(f'{words}: status {run.returncode}, note {note!r}, {took:.1f} s')
        return run.stdout

    def fail(self, what):
        """Ends with 1, and says of what and where the files are."""
        print(f'{what}; the files are in {self.folder}')
        self.finish(1)

    def finish(self, failed):
        """Prints how the runs ended, and ends."""
        for (command, status), count in sorted(self.ends.items()):
            print(f'{command}: status {status}: {count}')
        print(f'{max(0, sum(self.ends.values()) - failed)} passed, {failed} failed')
        raise SystemExit(failed)

    def expect(self, what, holds):
        if not holds:
            self.fail(what)

    def solve(self, command):
        """An answer, which has to be right and the same for four workers."""
        answer = self.run(f'{command} f', (0, 13) if command == 'cuts' else (0,))
        if command == 'cuts':
            return
        name, *number = command.split()
        self.expect(f'{command}: other bytes for four workers',
                    self.run(' '.join([name, '--workers 4', *number, 'f']), (0,)) == answer)
        self.write('c', answer)
        self.expect(f'{command}: an answer is not right', self.run('check f c', (0,)) == b'yes\n')

    def witness(self, numbers):
        """Witnesses of the rungs of the answer in `c`, and one with changes."""
        answer = open(os.path.join(self.folder, 'c'), 'rb').read()
        last = int(answer.split(b'\n')[1].split(b' ')[3])
        self.run(f'witness {last + 1} f c', (9,))
        for rung in range(last + 1):
            witness = self.run(f'witness {rung} f c', (0, 11))
            if not witness:
                return
            self.write('w', witness)
            self.expect(f'rung {rung}: a witness does not show it',
                        self.run(f'verify {rung} f c w', (0,)) == b'yes\n')
        self.write('w', changed(numbers, witness))
        self.run(f'verify {rung} f c w', (0, 1, 12))

    def problem(self, numbers):
        """A problem, its answers, and their texts with changes."""
        form, text = problem(numbers)
        self.write('f', text)
        canonical = self.run('show f', (0,))
        for command in COMMANDS[form]:
            self.solve(command)
        if form == 'pair':
            self.witness(numbers)
        self.write('l', '\n'.join(['jobs 1'] + [f'job {c} f' for c in COMMANDS[form] if c != 'cuts']
                                  + ['end', '']).encode())
        self.expect('jobs: other bytes for four workers',
                    self.run('batch l', (0,)) == self.run('batch --workers 4 l', (0,)))
        other = numbers.choice(EVERY)
        if other not in COMMANDS[form]:
            self.run(f'{other} f', (9,))
        self.write('f', canonical)
        self.expect('the canonical text has another one', self.run('show f', (0,)) == canonical)
        answer = os.path.join(self.folder, 'c')
        certificate = open(answer, 'rb').read() if os.path.exists(answer) else b''
        for _ in range(4):
            self.write('f', text)
            self.write('c', changed(numbers, certificate))
            self.run('check f c', (0, 1, 4, 9))
            self.write('f', changed(numbers, text))
            self.run('show f', (0, 3))


def main():
    words = sys.argv[1:]
    by_count = words[:1] == ['--problems']
    try:
        limit, seed, *rest = float(words[by_count]), int(words[by_count + 1]), *words[by_count + 2:]
    except (IndexError, ValueError):
        sys.exit('usage: soak.py SECONDS SEED [PROGRAM], '
                 'or soak.py --problems COUNT SEED [PROGRAM]')
    program = rest[0] if rest else 'crates/mat_main/out/mat_main'
    if not os.access(program, os.X_OK):
        sys.exit(f'soak.py: {program}: there is no such program; '
                 './matbench --version puts it there')
    numbers, began, done = random.Random(seed), time.monotonic(), 0
    soak = Soak(program, tempfile.mkdtemp(),
                *((AN_HOUR, AN_HOUR) if by_count else (SECONDS, LONGEST)))
    while (done if by_count else time.monotonic() - began) < limit:
        soak.problem(numbers)
        done += 1
    shutil.rmtree(soak.folder)
    soak.finish(0)


if __name__ == '__main__':
    main()
