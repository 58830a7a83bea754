#!/usr/bin/env python3
"""Tests launcher/kept.py between small kits that have rt alone, with libraries that rt keeps and
takes by its own functions. Nothing is proved, and nothing outside a temporary folder is written.
The last line is `N passed, M failed`. Needs rt; it takes some five seconds.
"""
import os
import shutil
import subprocess
import sys
import tarfile
import tempfile

TOP = os.path.dirname(os.path.dirname(os.path.realpath(__file__)))
# Has rt keep, or take, the crates of a checkout: their libraries are files with a text of the crate.
BY_RT = '''
import importlib.machinery, importlib.util, os, sys
sys.dont_write_bytecode = True
loader = importlib.machinery.SourceFileLoader('rt', sys.argv[1])
rt = importlib.util.module_from_spec(importlib.util.spec_from_loader('rt', loader))
loader.exec_module(rt)
top = sys.argv[3]
rt.Crate.allowed = rt.handles_of(top)
crates = rt.crates_of(top)
kept = rt.Kept(crates)
for crate in crates:
    key = kept.key(crate)
    edits = [f'{crate.folder}/must-fail/{it}' for it in os.listdir(f'{crate.folder}/must-fail')]
    if sys.argv[2] == 'take':
        print(crate.name, kept.give(crate, False, key),
              *[kept.tried(kept.of_edit(it, key)) is not None for it in edits])
    else:
        os.makedirs(f'{crate.folder}/out/rlib/{crate.name}.rlib', exist_ok=True)
        with open(f'{crate.folder}/out/rlib/{crate.name}.rlib/format', 'w') as it:
            it.write('library ' + crate.name)
        for edit in edits:
            kept.keep_tried(kept.of_edit(edit, key), rt.REFUSED, 'refused')
    kept.is_built(crate)
    if sys.argv[2] == 'keep':
        kept.keep(crate, False, key)
'''
results = []


def tell(name, seen, wanted):
    """Notes whether what was seen is as it should be."""
    results.append(seen == wanted)
    print(f'ok: {name}' if seen == wanted else f'WRONG: {name}: {seen!r}, and not {wanted!r}')


def written(path, text):
    os.makedirs(os.path.dirname(path), exist_ok=True)
    with open(path, 'w', encoding='utf-8') as to:
        to.write(text)


class Place:
    """A folder with a checkout of three crates, and kits beside it."""

    def __init__(self, folder):
        self.folder, self.top = folder, f'{folder}/top'
        installed = os.path.realpath(shutil.which('rt'))
        for name in ('rt', 'rtlib.py'):
            os.makedirs(f'{folder}/a/kit/bin', exist_ok=True)
            shutil.copy2(f'{os.path.dirname(installed)}/{name}', f'{folder}/a/kit/bin/')
        os.makedirs(f'{folder}/a/kit/rlibs/std.rlib')
        for name in ('toolchain', 'logic_built', 'c', 'rattle/logic', 'rattle/antt'):
            os.makedirs(f'{folder}/a/kit/{name}')
        for name in ('KIT-ID', 'WHAT', 'rlibs/std.rlib/format', 'rlibs/std.rlib/toolchain/checked'):
            written(f'{folder}/a/kit/{name}', 'the kit\n')
        shutil.copytree(f'{folder}/a/kit', f'{folder}/b/kit')
        shutil.copytree(f'{folder}/a/kit', f'{folder}/c/kit')
        os.utime(f'{folder}/c/kit/bin/rt')
        self.make_checkout()

    def make_checkout(self):
        written(f'{self.top}/crates.txt', '# Lowest first.\nlow:\nmiddle: low\nhigh: middle\n')
        written(f'{self.top}/HANDLES', 'Handles allowed: none.\n')
        os.makedirs(f'{self.top}/launcher')
        os.makedirs(f'{self.top}/.git')
        shutil.copy(f'{TOP}/launcher/kept.py', f'{self.top}/launcher/')
        for crate in ('low', 'middle', 'high'):
            self.change(crate, '')
            written(f'{self.top}/crates/{crate}/must-fail/one.edit',
                    'file: src/lib.rt\nold: x\nnew: y\n')

    def change(self, crate, text):
        written(f'{self.top}/crates/{crate}/src/lib.rt', f'//! A crate. {text}\n#![tactic(auto)]\n')

    def by_rt(self, kit, how):
        """Has the rt of a kit keep or take the crates, and gives what it says."""
        if how == 'take':
            for crate in ('low', 'middle', 'high'):
                shutil.rmtree(f'{self.top}/crates/{crate}/out', ignore_errors=True)
        run = subprocess.run([sys.executable, '-c', BY_RT, f'{self.folder}/{kit}/kit/bin/rt', how,
                              self.top], capture_output=True, text=True, cwd=self.top)
        return run.stdout + run.stderr

    def kept(self, kit, *words):
        """The status of kept.py beside a kit, and what it says."""
        run = subprocess.run([sys.executable, f'{self.top}/launcher/kept.py', *words],
                             capture_output=True, text=True, cwd=self.top,
                             env={**os.environ, 'PATH': f'{self.folder}/{kit}/kit/bin:/usr/bin:/bin'})
        return run.returncode, run.stdout + run.stderr

    def names(self, kit):
        """What is beside a kit."""
        found = []
        for at, _, files in os.walk(f'{self.folder}/{kit}/rattle-kept'):
            inner = os.path.relpath(at, f'{self.folder}/{kit}/rattle-kept')
            found += [f'{inner}/{it}' for it in files]
        return sorted(it for it in found if not it.startswith('./lock-'))


def try_whole(place, pack):
    """A pack goes from one kit to another, with what the checkout has now alone."""
    place.change('high', 'It was otherwise.')
    place.by_rt('a', 'keep')
    older = place.names('a')
    place.change('high', '')
    place.by_rt('a', 'keep')
    tell('kept by rt', (len(older), len(place.names('a'))), (9, 12))
    tell('packed', place.kept('a', 'pack', pack)[1].split(': ')[1].split(',')[0], '6 entries')
    tell('beside the other kit nothing is taken', place.by_rt('b', 'take'),
         'low False False\nmiddle False False\nhigh False False\n')
    status, told = place.kept('b', 'lay', pack)
    tell('laid out', (status, told.split(': ')[-1]), (0, '6 entries laid out, 0 were there\n'))
    tell('what the checkout has now, and no more', place.names('b'),
         sorted(set(place.names('a')) - (set(older) - set(place.names('b')))))
    tell('without the older one', len(place.names('b')), 9)
    tell('rt takes it', place.by_rt('b', 'take'), 'low True True\nmiddle True True\nhigh True True\n')
    tell('once more', place.kept('b', 'lay', pack)[1].split(': ')[-1],
         '0 entries laid out, 6 were there\n')
    place.change('middle', 'It is otherwise.')
    tell('what differs is not taken', place.by_rt('b', 'take').splitlines()[:2],
         ['low True True', 'middle False False'])
    tell('nor told as kept', place.kept('b', 'list')[1],
         'low kept and 1 results of edits\nmiddle not kept\nhigh not kept\n')
    place.change('middle', '')


def try_refused(place, pack):
    """Packs that are not laid out."""
    status, told = place.kept('c', 'lay', pack)
    tell('another kit', (status, 'rt would take nothing of it' in told, place.names('c')),
         (1, True, []))
    with open(pack, 'rb') as it:
        whole = it.read()
    shutil.rmtree(f'{place.folder}/b/rattle-kept')
    bad = f'{place.folder}/bad.tar'
    for name, text, said in (
            ('a byte changed', whole.replace(b'library low', b'library lox'), 'has another sum'),
            ('cut off', whole[:whole.index(b'library high')], 'kept.py: '),
            ('no pack', b'x' * 2000, 'kept.py: ')):
        with open(bad, 'wb') as to:
            to.write(text)
        status, told = place.kept('b', 'lay', bad)
        tell(name, (status, said in told), (1, True))
    tell('rt takes nothing of what was spoilt', 'high True' in place.by_rt('b', 'take'), False)
    shutil.copy(pack, bad)
    with tarfile.open(bad, 'a') as tar:
        tar.add(pack, 'edits/../../out')
    status, told = place.kept('b', 'lay', bad)
    tell('a file elsewhere', (status, 'has what no pack has' in told,
                              os.path.exists(f'{place.folder}/b/out')), (1, True, False))
    shutil.rmtree(f'{place.folder}/b/rattle-kept')
    os.makedirs(f'{place.folder}/elsewhere')
    os.symlink(f'{place.folder}/elsewhere', f'{place.folder}/b/rattle-kept')
    status, told = place.kept('b', 'lay', pack)
    tell('a link beside the kit', (status, os.listdir(f'{place.folder}/elsewhere')), (1, []))
    tell('other words', place.kept('b', 'unpack', pack)[0], 64)
    tell('what one trusts is said first', place.kept('b', '--help')[1].split('\n\n')[1].split(':')[0],
         'Whoever lays out a pack trusts whoever made it')


def main():
    if shutil.which('rt') is None:
        print('not run: there is no rt')
        return 1
    with tempfile.TemporaryDirectory() as folder:
        place = Place(os.path.realpath(folder))
        try_whole(place, f'{folder}/pack.tar')
        for name in ('.zst', '.gz'):
            if shutil.which(name.replace('.gz', 'gzip').replace('.zst', 'zstd')):
                status, _ = place.kept('a', 'pack', f'{folder}/pack{name}')
                told = place.kept('b', 'lay', f'{folder}/pack{name}')[1]
                tell(f'packed as {name}, laid out', (status, told.split(': ')[-1]),
                     (0, '0 entries laid out, 6 were there\n'))
        try_refused(place, f'{folder}/pack.tar')
    print(f'{results.count(True)} passed, {results.count(False)} failed')
    return 0 if all(results) else 1


if __name__ == '__main__':
    sys.exit(main())
