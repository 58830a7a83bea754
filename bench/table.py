#!/usr/bin/env python3
"""Makes the tables of all commands at 500 elements: `table.py [N] [PROGRAM [OTHER]]`, at the top of
the repository.

For each case below, which `cases.py` prints, and its command the table has the seconds on the clock
(the best of three runs) and the peak memory with 1 and with 4 workers, and those of `check` on the
answer; then those of samples, and, for the rung in the middle of each answer about matroids that
have witnesses, those of `witness` and `verify`, with the bytes of the text; for a second program,
such as that of another commit, the same beside it. It ends with 1 where a program writes other
bytes with 4 workers than with 1, or where `check` or `verify` does not say yes. The memory is what
GNU `time` (/usr/bin/time) tells. The program is crates/mat_main/out/mat_main where none is named.
Run it ahead of other work (`chrt -r 50 python3 bench/table.py`), or the figures say little.
"""
import os
import subprocess
import sys
import tempfile
import time

PAIRS = ['free', 'partitions', 'graphic', 'gf2', 'laminar', 'graphs', 'transversal', 'dual',
         'nested', 'gammoid', 'joined']
CASES = ([(name, ['intersect']) for name in PAIRS]
         + [('union', ['union']), ('unions', ['union']), ('uniforms', ['union']), ('one', ['best']),
            ('one', ['pack']), ('one', ['cover']),
            ('graph', ['trees', '2']), ('graph', ['trees', '4']), ('rooted', ['arborescence']),
            ('rooted', ['disjoint', '1']),
            ('rooted', ['disjoint', '4']), ('payable', ['cuts']), ('coloured', ['rainbow']),
            ('table', ['assign'])])
WITNESSED = ['free', 'partitions', 'graphic', 'gf2', 'laminar', 'graphs', 'gammoid']
SAMPLES = ['pair', 'list', 'graph', 'rooted', 'table']
WORKERS = [[], ['--workers', '4']]
RUNS = 3


def once(program, words, folder=None):
    """How a run in a folder ends, its output, its seconds, and its peak memory in MB, which GNU
    `time` tells."""
    with tempfile.NamedTemporaryFile('r') as told:
        begin = time.perf_counter()
        run = subprocess.run(['/usr/bin/time', '-f', '%M', '-o', told.name, program] + words,
                             cwd=folder, capture_output=True)
        took = time.perf_counter() - begin
        return run.returncode, run.stdout, took, int(told.read().split()[-1]) / 1024


def measured(program, words):
    """The output of a run, its seconds and its peak memory in MB: the least of each of some
    runs."""
    seconds, memory, out = [], [], b''
    for _ in range(RUNS):
        status, out, took, peak = once(program, words)
        if status != 0:
            raise SystemExit(f'{program} {" ".join(words)} ends with {status}')
        seconds.append(took)
        memory.append(peak)
    return out, min(seconds), min(memory)


def with_cell(program, words):
    """The output of a run, and the cell of its seconds and its memory."""
    out, seconds, memory = measured(program, words)
    return out, f'{seconds:.3f} ({memory:.0f})'


def by_workers(program, words):
    """The output of a call, which is the same bytes with 1 and with 4 workers, and the cell of
    each."""
    (out, one), (other, four) = (with_cell(program, words[:1] + option + words[1:])
                                 for option in WORKERS)
    if other != out:
        raise SystemExit(f'{program} {" ".join(words)}: other bytes for 4 workers')
    return out, [one, four]


def hold_to_yes(program, words, verdict):
    """Ends where a call that judges does not say yes."""
    if verdict != b'yes\n':
        raise SystemExit(f'{program} {" ".join(words)} says {verdict!r}')


def saved(folder, name, text):
    """A file of these bytes."""
    path = os.path.join(folder, name)
    with open(path, 'wb') as to:
        to.write(text)
    return path


def described(name, count, folder):
    """The file of a case."""
    path = os.path.join(folder, name + '.txt')
    if not os.path.exists(path):
        with open(path, 'wb') as to:
            subprocess.run([sys.executable, os.path.join(os.path.dirname(__file__), 'cases.py'),
                            name, str(count)], stdout=to, check=True)
    return path


def figures(program, command, path, folder):
    """Seconds and memory with 1 and with 4 workers, of the command and of `check` where it judges
    the answers of the command."""
    if command[0] == 'cuts':
        return [with_cell(program, command + [path])[1]] + [''] * 3
    answer, cells = by_workers(program, command + [path])
    check = ['check', path, saved(folder, 'answer', answer)]
    verdict, more = by_workers(program, check)
    hold_to_yes(program, check, verdict)
    return cells + more


def witnessed(program, path, folder):
    """A rung in the middle of the answer, seconds and memory of `witness` and of `verify` on it,
    and the length of its text."""
    answer = measured(program, ['intersect', path])[0]
    rung = str(int(answer.split(maxsplit=6)[5]) // 2)
    words = [rung, path, saved(folder, 'answer', answer)]
    witness, made = with_cell(program, ['witness'] + words)
    verify = ['verify'] + words + [saved(folder, 'witness', witness)]
    verdict, judged = with_cell(program, verify)
    hold_to_yes(program, verify, verdict)
    return [rung, made, judged, f'{len(witness):,}']


def main():
    arguments = sys.argv[1:]
    count = int(arguments.pop(0)) if arguments and arguments[0].isdigit() else 500
    programs = arguments or ['crates/mat_main/out/mat_main']
    heads = ['1 worker', '4 workers', '`check`, 1', '`check`, 4']
    print('| case | command |', ' | '.join(head for _ in programs for head in heads), '|')
    print('|---|---|' + '---|' * (len(heads) * len(programs)))
    with tempfile.TemporaryDirectory() as folder:
        for name, command in CASES:
            path = described(name, count, folder)
            cells = [cell for program in programs
                     for cell in figures(program, command, path, folder)]
            print(f'| `{name}` | `{" ".join(command)}` |', ' | '.join(cells), '|', flush=True)
    samples(programs, count)
    heads = ['rung', '`witness`', '`verify`', 'bytes']
    print('\n| case |', ' | '.join(head for _ in programs for head in heads), '|')
    print('|---|' + '---|' * (len(heads) * len(programs)))
    with tempfile.TemporaryDirectory() as folder:
        for name in WITNESSED:
            path = described(name, count, folder)
            cells = [cell for program in programs for cell in witnessed(program, path, folder)]
            print(f'| `{name}` |', ' | '.join(cells), '|', flush=True)


def samples(programs, count):
    """The rows of `sample`."""
    for kind in SAMPLES:
        words = ['sample', kind, str(count), '7']
        cells = [cell for program in programs for cell in by_workers(program, words)[1] + [''] * 2]
        print(f'| | `{" ".join(words)}` |', ' | '.join(cells), '|', flush=True)


if __name__ == '__main__':
    main()
