#!/usr/bin/env python3
"""Runs the worst inputs at each limit: `worst.py [PROGRAM]`, at the top of the repository.

Prints for each a line of a table: the command, how it ended, the seconds on the clock and the peak
memory, and those of `check`, `--tell` and `--picture` of its answer. The program is
crates/mat_main/out/mat_main where none is named.
"""
import os
import random
import sys
import tempfile

from table import once, saved

N = 500
DESCRIPTION_LIMIT, CERTIFICATE_LIMIT = 4194304, 67108864


def line(*words):
    return ' '.join(str(word) for word in words)


def weights(numbers, n=N):
    return line('weights', *(numbers.randint(-10 ** 12, 10 ** 12) for _ in range(n)))


def graph_on(vertices):
    def lines(numbers):
        ends = [(numbers.randrange(vertices), numbers.randrange(vertices)) for _ in range(N)]
        return [f'graphic {vertices}'] + [line('edge', *both) for both in ends]
    return lines


graphic = graph_on(N // 2)


def transversal(numbers):
    sets = [sorted(numbers.sample(range(N), 250)) for _ in range(N)]
    return [f'transversal {N}'] + [line('set', *members) for members in sets]


def gammoid(numbers):
    return ([f'gammoid {N} 20000', line('sources', *numbers.sample(range(N), N // 2)),
             line('targets', *numbers.sample(range(N), N))]
            + [line('arc', numbers.randrange(N), numbers.randrange(N)) for _ in range(20000)])


def gf2(numbers):
    return ['gf2 128'] + ['column ' + format(numbers.getrandbits(128), '0128b') for _ in range(N)]


def partition(numbers):
    classes = [[] for _ in range(N // 4)]
    for x in range(N):
        numbers.choice(classes).append(x)
    return [f'partition {len(classes)}'] + [line('class', 1, *members) for members in classes]


WRAPPERS = {'dual': lambda numbers: 'dual', 'truncate': lambda numbers: f'truncate {N // 3}',
            'restrict': lambda numbers: line('restrict', *sorted(numbers.sample(range(N), N - 5))),
            'contract': lambda numbers: line('contract', *sorted(numbers.sample(range(N), 4)))}


def wrapped(names, inner):
    """A matroid in fifteen wrappers, of these kinds in turn: with it sixteen stand within one
    another."""
    def lines(numbers):
        return [WRAPPERS[names[i % len(names)]](numbers) for i in range(15)] + inner(numbers)
    return lines


def union(count, inner):
    def lines(numbers):
        return [f'union {count}'] + [text for _ in range(count) for text in inner(numbers)]
    return lines


def dual(inner):
    return lambda numbers: ['dual'] + inner(numbers)


def uniform(cap):
    return lambda numbers: [f'uniform {cap}']


def pair(first, second):
    numbers = random.Random(1)
    return '\n'.join(['matroids 1', f'pair {N}', weights(numbers)] + first(numbers)
                     + second(numbers) + ['end', '']).encode()


def listed(kinds):
    numbers = random.Random(1)
    body = [text for kind in kinds for text in kind(numbers)]
    return '\n'.join(['matroids 1', f'list {N} {len(kinds)}', weights(numbers)] + body
                     + ['end', '']).encode()


def gammoid_of_500(numbers):
    arcs = [line('arc', numbers.randrange(N), numbers.randrange(N)) for _ in range(500)]
    return ['gammoid 500 500', line('sources', *range(250)), line('targets', *range(500))] + arcs


def pairs():
    """Pairs of matroids, each with its name."""
    for name in WRAPPERS:
        yield (f'a graph in fifteen times `{name}`, against a partition',
               wrapped([name], graphic), partition)
    mixed = wrapped(['dual', 'truncate', 'restrict', 'contract'], graphic)
    yield 'a graph in fifteen mixed wrappers, against a partition', mixed, partition
    yield ('the same, against a transversal matroid in such wrappers', mixed,
           wrapped(['contract', 'dual'], transversal))
    yield 'a gammoid of 20,000 arcs, against another', gammoid, gammoid
    yield 'a gammoid in fifteen duals, against 128 digits', wrapped(['dual'], gammoid), gf2
    yield '500 sets of 250 elements, against another such family', transversal, transversal
    yield ('the union of two graphs, against the union of two others',
           union(2, graphic), union(2, graphic))
    yield 'the union of two gammoids, against a partition', union(2, gammoid), partition
    yield 'the dual of a union of four graphs, against a graph', dual(union(4, graphic)), graphic
    dense = graph_on(N // 5)
    yield ('the dual of a union of two graphs on 100 vertices, against a partition',
           dual(union(2, dense)), partition)
    yield ('the union of 64 unions of 64 uniform matroids, against a partition',
           union(64, union(64, uniform(1))), partition)
    crowded = union(64, lambda numbers: ['partition 1', line('class', 1, *range(300))])
    yield ('the union of 64 partitions with a class of 300 in common, against a free matroid',
           crowded, uniform(N))
    yield 'two free matroids, 501 rungs of weights of 13 digits', uniform(N), uniform(N)


def solved():
    """Descriptions, each with the command that solves it; `check` judges the answer, `--tell` says
    it and `--picture` draws it."""
    for name, first, second in pairs():
        yield name, 'intersect', pair(first, second)
    yield '64 gammoids of 500 arcs', 'union', listed([gammoid_of_500] * 64)
    yield 'a gammoid of 20,000 arcs', 'best', listed([gammoid])
    yield 'the same', 'pack', listed([gammoid])
    yield 'the same', 'cover', listed([gammoid])


def refused():
    """Texts at the limits of their length, each with the words that read it, and the description
    beside a certificate."""
    free = pair(uniform(N), uniform(N))
    for name, text in [('one long line', b'x' * DESCRIPTION_LIMIT),
                       ('only newlines', b'\n' * DESCRIPTION_LIMIT),
                       ('numbers of 31 digits',
                        (b'matroids 1\npair 500\nweights' + b' 1' + b'0' * 30)
                        * (DESCRIPTION_LIMIT // 64)),
                       ('one word more than the limit', b'x' * (DESCRIPTION_LIMIT + 1))]:
        yield f'a description of 4 MB: {name}', 'show f', text, b''
    head = b'certificate 1\nanswer intersect 500 500\nrung 0 0\nset\nfirst'
    for name, text in [('one long line', b'x' * CERTIFICATE_LIMIT),
                       ('only newlines', b'\n' * CERTIFICATE_LIMIT),
                       ('numbers of 31 digits in one line',
                        head + (b' 1' + b'0' * 30) * (CERTIFICATE_LIMIT // 32)),
                       ('a line of many words', head + b' 1' * (CERTIFICATE_LIMIT // 2))]:
        yield f'a certificate of 64 MB: {name}', 'check f c', free, text[:CERTIFICATE_LIMIT]


def measured(program, folder):
    """A line of a table for each description: how its command and each judging of its answer
    ended, the seconds of each, and the most memory."""
    print('| input | command | ends | seconds | `check` | `--tell` | `--picture` | most MB |')
    print('|---|---|---|---|---|---|---|---|')
    for name, command, text in solved():
        saved(folder, 'f', text)
        runs = [once(program, [command, 'f'], folder)]
        saved(folder, 'c', runs[0][1])
        runs += [once(program, [judging, 'f', 'c'], folder)
                 for judging in ('check', '--tell', '--picture')]
        ends = ' '.join(str(end) for end in sorted({status for status, _, _, _ in runs}))
        seconds = ' | '.join(f'{took:.2f}' for _, _, took, _ in runs)
        memory = max(peak for _, _, _, peak in runs)
        print(f'| {name} | `{command}` | {ends} | {seconds} | {memory:.0f} |', flush=True)


def measured_refusals(program, folder):
    """A line of a table for each text that is refused."""
    print('\n| refused text | command | ends | seconds | MB |\n|---|---|---|---|---|')
    for name, words, text, certificate in refused():
        saved(folder, 'f', text)
        saved(folder, 'c', certificate)
        status, _, seconds, memory = once(program, words.split(), folder)
        print(f'| {name} | `{words.split()[0]}` | {status} | {seconds:.2f} | {memory:.0f} |',
              flush=True)


def main():
    program = os.path.abspath(sys.argv[1] if len(sys.argv) > 1 else 'crates/mat_main/out/mat_main')
    with tempfile.TemporaryDirectory() as folder:
        measured(program, folder)
        measured_refusals(program, folder)


if __name__ == '__main__':
    main()
