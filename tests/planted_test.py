#!/usr/bin/env python3
"""Tests tests/planted.py over the small kits and crates of kept_test.py, with a stand-in for the
prover, which refuses each source with the word WRONG. Nothing is proved, and nothing outside a
temporary folder is written. The last line is `N passed, M failed`. Needs rt; it takes some five
seconds.
"""
import os
import re
import shutil
import subprocess
import sys
import tempfile

from kept_test import TOP, Place, results, tell, written

PROVER = '''#!/bin/sh
echo "$*" | sed 's/.*--crate-name \\([a-z]*\\) .*--jobs 1/\\1/' >>"$(dirname "$0")/../calls"
last=logic=not-proved
case "$*" in *--only*) last="only=1 proved=0" ;; esac
case "$*" in *"--only both") echo 'error: several functions are named `both`: help: write one of `low::A::both`, `other::both`'; exit 2 ;; esac
if grep -q WRONG src/lib.rt; then
    echo 'src/lib.rt:9:5: error: `second`: a goal is open'
    echo "$last"
    exit 1
fi
echo "logic=proved"
'''
SOURCE = '''//! A crate.
#![tactic(auto)]

const MANY: u64 = 7;

pub fn first() -> u64 {
    MANY
}

    pub(crate) fn second<T>(x: T) -> T {
        x
    }
'''
EDITS = {'of_a_function': ('        x', '        WRONG'), 'of_a_constant': ('= 7;', '= WRONG;'),
         'of_no_meaning': ('    MANY', '    MANY + 0'), 'of_nothing': ('ZZZ', 'WRONG')}


class Planted(Place):
    """A checkout with wrong bodies, and a kit whose prover is a stand-in."""

    def __init__(self, folder):
        super().__init__(folder)
        written(f'{folder}/a/kit/bin/rattle', PROVER)
        os.chmod(f'{folder}/a/kit/bin/rattle', 0o755)
        os.makedirs(f'{self.top}/tests')
        shutil.copy(f'{TOP}/tests/planted.py', f'{self.top}/tests/')
        for crate in ('low', 'high'):
            written(f'{self.top}/crates/{crate}/src/lib.rt', SOURCE)
        for name, (old, new) in EDITS.items():
            self.plant(f'low/{name}', old, new)
        self.plant('high/of_a_function', '        x', 'WRONG')

    def plant(self, label, old, new):
        written(f'{self.top}/tests/planted/{label}.edit',
                f'file: src/lib.rt\nold: {old}\nnew: {new}\n')

    def planted(self, *words):
        """The status of planted.py, its lines without seconds, and what the prover was called for."""
        calls = f'{self.folder}/a/kit/calls'
        written(calls, '')
        run = subprocess.run([sys.executable, f'{self.top}/tests/planted.py', *words],
                             capture_output=True, text=True,
                             env={**os.environ, 'TMPDIR': self.folder,
                                  'PATH': f'{self.folder}/a/kit/bin:/usr/bin:/bin'})
        told = re.sub(r'\([0-9]+ s\)', '(now)', run.stdout + run.stderr)
        lines = [' '.join(line.split(': ')[:2]) for line in told.splitlines()]
        with open(calls, encoding='utf-8') as it:
            return run.returncode, lines, sorted(it.read().splitlines())


def try_verdicts(place):
    """What is refused, what is not, and what a second run does."""
    status, lines, calls = place.planted('low')
    tell('the edits of a crate', (status, sorted(lines)), (1, [
        '2 passed, 2 failed', 'NOT REFUSED (now) low/of_no_meaning.edit',
        'NOT REFUSED (now) low/of_nothing.edit', 'refused (now) low/of_a_constant.edit',
        'refused (now) low/of_a_function.edit']))
    tell('functions alone, and the whole crate where they do not tell', calls,
         ['low', 'low', 'low --only first', 'low --only second'])
    status, lines, calls = place.planted('low')
    tell('once more: nothing is tried', (status, lines[-1], calls), (1, '2 passed, 2 failed', []))
    tell('one edit', place.planted('low/of_a_function'),
         (0, ['refused (before) low/of_a_function.edit', '1 passed, 0 failed'], []))
    verdicts = f'{place.top}/tests/planted/out/verdicts'
    with open(verdicts, encoding='utf-8') as it:
        text = it.read()
    written(verdicts, text[:text.index('\n') + 20])
    tell('cut off in the second verdict: the first is known', place.planted('--jobs', '2', 'low')[2],
         ['low', 'low --only first', 'low --only second'])
    tell('it goes on', place.planted('--jobs', '2', 'low')[2], [])
    written(f'{place.top}/crates/low/src/lib.rt', SOURCE.replace('A crate', 'The crate'))
    tell('a change of the crate: all is tried', len(place.planted('--jobs', '3', 'low')[2]), 4)
    tell('another file of verdicts',
         len(place.planted('--verdicts', f'{place.folder}/new', 'low')[2]), 4)
    tell('a name that is not there', place.planted('low/other')[0], 64)
    tell('a word that is none', place.planted('--other')[0], 64)


def try_several(place):
    """A function whose name another one has too: its path is taken."""
    written(f'{place.top}/crates/low/src/lib.rt', SOURCE + 'fn both() {\n    BOTH\n}\n')
    place.plant('low/of_both', '    BOTH', 'WRONG')
    tell('several of a name', place.planted('low/of_both')[::2],
         (0, ['low --only both', 'low --only low::A::both']))
    os.remove(f'{place.top}/tests/planted/low/of_both.edit')


def try_reading(place):
    """Edits that are read alone."""
    status, lines, calls = place.planted('--read')
    tell('what the edits quote', (status, lines, calls),
         (1, ['low/of_nothing.edit what it quotes stands there so often', '4 passed, 1 failed'], []))


def try_libraries(place):
    """A crate over libraries that are kept, and over some that are not."""
    tell('no library is kept', place.planted('high'),
         (1, ['NOT TRIED high/of_a_function.edit', '0 passed, 1 failed'], []))
    place.by_rt('a', 'keep')
    tell('they are', place.planted('high'),
         (0, ['refused (now) high/of_a_function.edit', '1 passed, 0 failed'], ['high --only second']))
    place.change('middle', 'It is otherwise.')
    tell('another one below is not', place.planted('high')[1][0], 'NOT TRIED high/of_a_function.edit')
    tell('nothing is left', [it for it in os.listdir(place.folder) if it.startswith('planted-')], [])


def main():
    if shutil.which('rt') is None:
        print('not run: there is no rt')
        return 1
    with tempfile.TemporaryDirectory() as folder:
        place = Planted(os.path.realpath(folder))
        try_verdicts(place)
        try_libraries(place)
        try_reading(place)
        try_several(place)
    print(f'{results.count(True)} passed, {results.count(False)} failed')
    return 0 if all(results) else 1


if __name__ == '__main__':
    sys.exit(main())
