#!/usr/bin/env python3
"""Tries the wrong bodies of tests/planted/: each must be refused by the prover.

    tests/planted.py [--jobs N] [--verdicts FILE] [CRATE | CRATE/EDIT]..
    tests/planted.py --read     tells alone whether each quotes what its source has once

Without names all are tried, N at a time, 1 if N is not given; each takes a processor and up to 2,500
MB. Of the crate with the edit the functions that it changes are checked alone, over the libraries
that are kept beside the kit: of the crates below, ./prove or `rt ci` has to have passed. What is
still proved there, and an edit outside a function, is tried on the whole crate.

Each verdict is written to FILE (tests/planted/out/verdicts) at once, under a checksum of all that it
rests on: so a run that was cut off goes on where it was, and one after a change tries what the
change may concern. The last line is `N passed, M failed`: an edit that was not refused, or could not
be tried, has failed.
"""
import concurrent.futures
import importlib.util
import os
import re
import shutil
import subprocess
import sys
import tempfile
import threading
import time

TOP = os.path.dirname(os.path.dirname(os.path.realpath(__file__)))
PLANTED = f'{TOP}/tests/planted'
FUNCTION = re.compile(r'^\s*(?:pub(?:\([a-z]+\))? )?(?:const )?(?:unsafe )?fn (\w+)', re.M)

# What a check says of a name that several functions have, and their paths.
SEVERAL = re.compile(r'several functions are named `(\w+)`: help: write one of (.*)')


def kept_module():
    """launcher/kept.py, which knows rt."""
    found = importlib.util.spec_from_file_location('kept', f'{TOP}/launcher/kept.py')
    made = importlib.util.module_from_spec(found)
    found.loader.exec_module(made)
    return made


def words_of(arguments):
    """The number of tries at a time, the file of verdicts, and the names."""
    jobs, verdicts, names = 1, f'{PLANTED}/out/verdicts', []
    words = list(arguments)
    while words:
        word = words.pop(0)
        if word == '--jobs' and words and words[0].isdigit() and int(words[0]) > 0:
            jobs = int(words.pop(0))
        elif word == '--verdicts' and words:
            verdicts = words.pop(0)
        elif word.startswith('-'):
            print(__doc__, file=sys.stderr)
            raise SystemExit(64)
        else:
            names.append(word.rstrip('/'))
    return jobs, verdicts, names


def edits_named(names):
    """The edits of these names, as pairs of a crate and a path."""
    every = [(crate, f'{PLANTED}/{crate}/{edit}') for crate in sorted(os.listdir(PLANTED))
             if crate != 'out' for edit in sorted(os.listdir(f'{PLANTED}/{crate}'))
             if edit.endswith('.edit')]
    label = lambda it: f'{it[0]}/{os.path.basename(it[1])[:-len(".edit")]}'
    for name in names:
        if not any(name in (it[0], label(it)) for it in every):
            print(f'planted.py: no wrong bodies of {name} are in {PLANTED}', file=sys.stderr)
            raise SystemExit(64)
    return [it for it in every if not names or it[0] in names or label(it) in names]


def copy_crates(room):
    """Copies what a proof reads."""
    shutil.copy(f'{TOP}/crates.txt', room)
    if os.path.exists(f'{TOP}/HANDLES'):
        shutil.copy(f'{TOP}/HANDLES', room)
    os.mkdir(f'{room}/.git')
    for crate in os.listdir(f'{TOP}/crates'):
        for part in ('src', 'specs', 'proofs', 'c'):
            if os.path.isdir(f'{TOP}/crates/{crate}/{part}'):
                shutil.copytree(f'{TOP}/crates/{crate}/{part}', f'{room}/crates/{crate}/{part}')


def lay_libraries(rt, room, wanted):
    """Lays out the libraries below these crates, and gives the crates by their names, with the sum
    that a verdict on one rests on, None if a library below it is not kept."""
    rt.Crate.allowed = rt.handles_of(room)
    crates = rt.crates_of(room)
    kept = rt.Kept(crates)
    needed = {it.name for crate in crates if crate.name in wanted for it in crate.below()}
    found = {}
    for crate in crates:
        has_all = all(below.name in kept.rlibs for below in crate.below())
        found[crate.name] = crate, kept.key(crate) if has_all else None
        if crate.name in needed and has_all and kept.give(crate, False, kept.key(crate)):
            kept.is_built(crate)
    return kept, found


def quoted(edit, folder):
    """The names and the texts of the sources that an edit changes, each with what it quotes."""
    file = None
    with open(edit, encoding='utf-8') as it:
        for line in it.read().splitlines():
            if line.startswith('file: '):
                file = line[len('file: '):]
            if line.startswith('old: '):
                with open(f'{folder}/{file}', encoding='utf-8') as source:
                    yield file, source.read(), line[len('old: '):]


def functions_of(edit, folder):
    """The functions that an edit changes, each with its module, or None if it changes something
    else."""
    names = []
    for file, text, old in quoted(edit, folder):
        before = FUNCTION.findall(text[:text.index(old) + len(old)])
        if not file.startswith('src/') or not before:
            return None
        module = file[len('src/'):-len('.rt')].replace('/', '::')
        names.append(('' if module in ('lib', 'main') else f'{module}::', before[-1]))
    return sorted(set(names))


def reads_well(crate, edit):
    """Whether each text that an edit quotes stands once in its source; it is told if not."""
    try:
        counts = [text.count(old) for _, text, old in quoted(edit, f'{TOP}/crates/{crate}')]
    except OSError as why:
        counts = [why.strerror]
    if counts and all(count == 1 for count in counts):
        return True
    print(f'{crate}/{os.path.basename(edit)}: what it quotes stands there so often: {counts}')
    return False


def check_alone(rt, crate, texts, names):
    """A check of these functions alone, with these texts in place of the crate's own."""
    only = [word for name in names for word in ('--only', name)]
    return rt.checked(crate, texts, ['--jobs', '1', *only], None)


def check_functions(rt, crate, texts, functions):
    """The same by paths, where several functions have a name; and the names that were asked for."""
    names, tried = [name for _, name in functions], set()
    ran = check_alone(rt, crate, texts, names)
    for several in iter(lambda: SEVERAL.search(ran.stdout), None):
        name = several[1]
        modules = tuple(f'{crate.name}::{module}' for module, it in functions if it == name)
        paths = [it for it in re.findall(r'`([\w:]+)`', several[2]) if it.startswith(modules)]
        if name in tried or not paths:
            break
        tried.add(name)
        names = [it for it in names if it != name] + paths
        ran = check_alone(rt, crate, texts, names)
    return names, ran


def try_functions(rt, crate, edit):
    """What a check of the functions that an edit changes comes to, None if it says nothing, and
    what is said of it."""
    texts, why = rt.read_edit(edit, crate.folder)
    functions = None if why else functions_of(edit, crate.folder)
    if functions is None:
        return None, why or 'no function is changed'
    names, ran = check_functions(rt, crate, texts, functions)
    lines = ran.stdout.rstrip('\n').split('\n')
    has_ended = any(re.match(r'only=\d+ proved=', line) for line in lines)
    if ran.returncode != 1 or not has_ended or any(rt.unread(line, texts) for line in lines):
        return None, lines[-1]
    told = next((line for line in lines if re.match(r'(note: )?\S+:\d+:\d+:', line)), lines[-1])
    return rt.REFUSED, f'{", ".join(names)}: {told[:160]}'


def try_edit(rt, crate, edit):
    """What a try of an edit comes to, and what is said of it."""
    kind, said = try_functions(rt, crate, edit)
    return (kind, said) if kind else rt.must_fail(crate, edit, ['--jobs', '1'])


class Verdicts:
    """The file of verdicts: lines of a checksum, what the try came to, its seconds, and what was
    said."""

    def __init__(self, path):
        self.path, self.known, self.alone = path, {}, threading.Lock()
        os.makedirs(os.path.dirname(os.path.abspath(path)), exist_ok=True)
        if os.path.exists(path):
            with open(path, encoding='utf-8') as it:
                for line in it:
                    cells = line.rstrip('\n').split('\t')
                    if len(cells) == 5 and line.endswith('\n'):
                        self.known[cells[0]] = cells[1], cells[4]
                    elif not line.endswith('\n'):
                        self.end_line()

    def end_line(self):
        """Ends the line in which a run was cut off."""
        with open(self.path, 'a', encoding='utf-8') as to:
            to.write('\n')

    def add(self, sum, kind, seconds, label, said):
        """Writes a verdict behind the others."""
        cells = [sum, kind, str(seconds), label, ' '.join(said.split())]
        with self.alone, open(self.path, 'a', encoding='utf-8') as to:
            to.write('\t'.join(cells) + '\n')


def judge(rt, kept, found, verdicts, crate, edit):
    """Tries an edit unless its verdict is known, tells it, and returns whether it is refused."""
    label, (it, key) = f'{crate}/{os.path.basename(edit)}', found[crate]
    if key is None:
        print(f'NOT TRIED: {label}: a crate below {crate} is not kept: ./prove or rt ci first',
              flush=True)
        return False
    sum = kept.of_edit(edit, key)
    if sum in verdicts.known:
        kind, said = verdicts.known[sum]
        when = 'before'
    else:
        begun = time.monotonic()
        kind, said = try_edit(rt, it, edit)
        when = f'{time.monotonic() - begun:.0f} s'
        if kind != rt.UNSURE:
            verdicts.add(sum, kind, round(time.monotonic() - begun), label, said)
    is_refused = kind in (rt.REFUSED, rt.AT_LIMIT)
    print(f'{"refused" if is_refused else "NOT REFUSED"} ({when}): {label}: {said}', flush=True)
    return is_refused


def ended(results):
    """Counts what passed, and gives the status."""
    print(f'{results.count(True)} passed, {results.count(False)} failed')
    return 0 if all(results) else 1


def main():
    if sys.argv[1:] == ['--read']:
        return ended([reads_well(crate, edit) for crate, edit in edits_named([])])
    jobs, path, names = words_of(sys.argv[1:])
    edits = edits_named(names)
    kept_py = kept_module()
    try:
        rt = kept_py.tool()
    except kept_py.Refused as why:
        print(f'planted.py: {why}', file=sys.stderr)
        return 70
    rt.Crate.cuts_libraries = True
    base = os.environ.get('TMPDIR', '/var/tmp')
    with tempfile.TemporaryDirectory(prefix='planted-', dir=base) as room:
        copy_crates(room)
        os.chdir(room)
        rt.rtlib.guarded()
        kept, found = lay_libraries(rt, room, {crate for crate, _ in edits})
        verdicts = Verdicts(path)
        with concurrent.futures.ThreadPoolExecutor(jobs) as pool:
            results = list(pool.map(lambda it: judge(rt, kept, found, verdicts, *it), edits))
    return ended(results)


if __name__ == '__main__':
    sys.exit(main())
