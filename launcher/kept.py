#!/usr/bin/env python3
"""Hands on what this machine keeps of the proofs of this checkout.

Whoever lays out a pack trusts whoever made it: rt takes what is kept as proved, and nothing in a
pack shows that it was. The checksums in it tell a pack that was damaged from a whole one, and not a
forged one from an honest one; `rt ci --anew` trusts no pack.

    launcher/kept.py list           tells of each crate whether its proof is kept here
    launcher/kept.py pack FILE      packs the proofs, the tests and the edits of the crates as they
                                    are now that are kept here; FILE.zst is packed by zstd, FILE.gz
                                    by gzip
    launcher/kept.py lay FILE       lays a pack out beside this machine's kit, so that ./prove and
                                    `rt ci` prove what differs alone

The kit that lays a pack out has to be the one that packed it, by the sum by which rt itself names
what it keeps: over the texts that name the kit, over rt, and over the sizes and the times of the
files that a proof reads. So a copy of a kit has to keep the times of its files, as `cp -a` and tar
do. A pack of another kit is refused, and so is one that is damaged.

What is laid out belongs to the user who does so, in rattle-kept beside the kit; what is there
stays. The status is 0 if all went well, 1 if it did not, and 64 for other words. Needs rt and
python3, and zstd for FILE.zst.
"""
import contextlib
import glob
import hashlib
import importlib.machinery
import importlib.util
import io
import json
import os
import re
import shutil
import subprocess
import sys
import tarfile
import tempfile

TOP = os.path.dirname(os.path.dirname(os.path.realpath(__file__)))
HEAD = 'pack.json'
ENTRY = re.compile(r'((?:proof|tests)-[a-z0-9_]+-([0-9a-f]{64}))/(made\.json|[0-9]{1,6})')
EDIT = re.compile(r'edits/([0-9a-f]{64})')
PACKERS = {'.zst': ['zstd', '-q', '-3', '-T0', '-c'], '.gz': ['gzip', '-1', '-c']}


class Refused(Exception):
    """Why a pack cannot be made or laid out."""


def tool():
    """The rt on the search path, as a module: what it keeps is named by its own functions."""
    path = shutil.which('rt')
    if path is None:
        raise Refused('there is no rt on the search path')
    sys.dont_write_bytecode = True
    loader = importlib.machinery.SourceFileLoader('rt', os.path.realpath(path))
    made = importlib.util.module_from_spec(importlib.util.spec_from_loader('rt', loader))
    loader.exec_module(made)
    lacking = [it for it in ('KIT', 'STORE', 'Kept', 'Crate', 'crates_of', 'handles_of', 'kit_sum',
                             'stamp_of') if not hasattr(made, it)]
    if lacking:
        raise Refused(f'this rt has no {lacking[0]}: it is of a kit that this script does not know')
    return made


def identity(rt):
    """The sum by which rt names what it keeps, and the kit's name."""
    with open(f'{rt.KIT}/KIT-ID', encoding='utf-8') as it:
        return {'sum': rt.kit_sum(), 'name': it.read().strip()}


def reader(rt):
    """What gives the names of entries, and changes nothing beside the kit."""
    kept = object.__new__(rt.Kept)
    kept.at, kept.rlibs = rt.STORE, {}
    return kept


def made_of(place):
    """The files that an entry says it has, each with its sum, or None if there is no such entry."""
    try:
        with open(f'{place}/made.json', encoding='utf-8') as it:
            return [tuple(it) for it in json.load(it)['files']]
    except (OSError, ValueError, KeyError, TypeError):
        return None


def entries(rt):
    """For each crate of the checkout, lowest first, its name, the places of its proof and of its
    tests, None for what is not kept, and those of its edits that are."""
    rt.Crate.allowed = rt.handles_of(TOP)
    kept, stamps = reader(rt), {}
    for crate in rt.crates_of(TOP):
        if any(below.name not in kept.rlibs for below in crate.below()):
            # (what it was proved over is not known)
            yield crate.name, None, None, []
            continue
        key = kept.key(crate)
        proof, tests = (kept.place(crate, is_tests, key) for is_tests in (False, True))
        files = made_of(proof)
        if files is not None:
            library = [] if crate.is_program else files
            kept.rlibs[crate.name] = hashlib.sha256(repr(library).encode()).hexdigest()
        yield (crate.name, proof if files is not None else None,
               tests if made_of(tests) is not None else None,
               edits_of(kept, crate, [key, rt.stamp_of(crate, stamps)]))


def edits_of(kept, crate, sums):
    """The places of what is kept of a crate's edits, also of those that the gate leaves out."""
    found = []
    for folder in (f'{TOP}/crates/{crate.name}/must-fail', f'{TOP}/tests/planted/{crate.name}'):
        for edit in sorted(glob.glob(f'{folder}/*.edit')):
            names = [f'{kept.at}/edits/{kept.of_edit(edit, it)}' for it in sums]
            found += filter(os.path.isfile, names)
    return found


@contextlib.contextmanager
def packed(path, mode):
    """A stream into a packed file, or out of it."""
    packer = PACKERS.get(os.path.splitext(path)[1])
    if packer is None:
        with open(path, f'{mode}b') as it:
            yield it
        return
    if shutil.which(packer[0]) is None:
        raise Refused(f'there is no {packer[0]} on the search path')
    with open(path, f'{mode}b') as it:
        if mode == 'w':
            run = subprocess.Popen(packer, stdin=subprocess.PIPE, stdout=it)
        else:
            run = subprocess.Popen([packer[0], '-d', '-c'], stdin=it, stdout=subprocess.PIPE)
        with run, run.stdin or run.stdout as stream:
            yield stream
    if run.returncode:
        raise Refused(f'{packer[0]} ended with {run.returncode}')


def pack(rt, path):
    """Packs what is kept of the checkout's crates."""
    places, lacking = [], []
    for crate, proof, tests, edits in entries(rt):
        places += filter(None, [proof, tests, *edits])
        lacking += [] if proof else [crate]
    if not places:
        raise Refused(f'nothing of these crates is kept in {rt.STORE}')
    new = f'{path}.{os.getpid()}'
    try:
        # (the last letters say by what it is packed)
        new += os.path.splitext(path)[1]
        with packed(new, 'w') as stream, tarfile.open(fileobj=stream, mode='w|',
                                                      dereference=True) as tar:
            head = json.dumps({'kit': identity(rt), 'entries': len(places)}).encode()
            told = tarfile.TarInfo(HEAD)
            told.size = len(head)
            tar.addfile(told, io.BytesIO(head))
            for place in places:
                tar.add(place, os.path.relpath(place, rt.STORE))
        os.replace(new, path)
    finally:
        with contextlib.suppress(OSError):
            os.remove(new)
    print(f'{path}: {len(places)} entries, {os.path.getsize(path):,} bytes')
    if lacking:
        print(f'not kept here, and not packed: {" ".join(lacking)}')


def check_kit(rt, head):
    """Refuses a pack of another kit."""
    own, other = identity(rt), head['kit']
    if own['sum'] != other['sum']:
        raise Refused(f'the pack is of the kit {other["name"]}, sum {other["sum"][:16]}, and this '
                      f'one is {own["name"]}, sum {own["sum"][:16]}: rt would take nothing of it')


def check_entry(room, key):
    """Refuses an entry of which a file lacks, or is another one."""
    with open(f'{room}/made.json', encoding='utf-8') as it:
        made = json.load(it)
    if made['key'] != key or len(os.listdir(room)) != len(made['files']) + 1:
        raise Refused('the pack is damaged: an entry is not whole')
    for number, (_, sum) in enumerate(made['files']):
        with open(f'{room}/{number}', 'rb') as it:
            if hashlib.sha256(it.read()).hexdigest() != sum:
                raise Refused('the pack is damaged: a file has another sum')


def check_edit(path, name):
    """Refuses the result of an edit that bears another name."""
    with open(path, encoding='utf-8') as it:
        if json.load(it)['edit'] != name:
            raise Refused('the pack is damaged: the result of an edit has another name')


class Store:
    """The folder beside the kit: entries are made apart, and then renamed, as rt does."""

    def __init__(self, rt):
        self.kept, self.new, self.old = rt.Kept([]), 0, 0
        if not self.kept.at:
            raise Refused(f'{rt.STORE} cannot be used: it is to be your own folder, and no link')

    def room(self):
        """A folder that rt removes if this ends early."""
        if not self.kept.has_room():
            raise Refused('the disk with the kit has less than 5,000 MB left')
        return tempfile.mkdtemp(prefix=f'rt-new-{os.getpid()}-', dir=self.kept.at)

    def put(self, made, name):
        """Puts what was made into its place, unless it is there."""
        place = f'{self.kept.at}/{name}'
        if os.path.exists(place):
            self.old += 1
            return
        os.makedirs(os.path.dirname(place), exist_ok=True)
        os.rename(made, place)
        os.utime(place)
        self.new += 1


def save(tar, member, path):
    """Writes a member to a new file with its time."""
    with open(path, 'xb') as to:
        shutil.copyfileobj(tar.extractfile(member), to)
    os.utime(path, (member.mtime, member.mtime))


def end_entry(store, room, name):
    """Puts the entry that a folder holds into its place."""
    if room:
        check_entry(room, name[-64:])
        store.put(room, name)
        shutil.rmtree(room, ignore_errors=True)


def lay_members(store, tar):
    """Lays out the members behind the head."""
    room, name = None, None
    try:
        # (to go through the members by `for` would begin with the head)
        for member in iter(tar.next, None):
            entry, edit = ENTRY.fullmatch(member.name), EDIT.fullmatch(member.name)
            if member.isdir() and ENTRY.fullmatch(f'{member.name}/0'):
                continue
            if not member.isreg() or not (entry or edit):
                raise Refused(f'the pack has what no pack has: {member.name!r}')
            if (entry and entry[1]) != name:
                end_entry(store, room, name)
                room, name = store.room() if entry else None, entry and entry[1]
            if entry:
                save(tar, member, f'{room}/{entry[3]}')
            else:
                lay_edit(store, tar, member, edit[1])
        end_entry(store, room, name)
        room = None
    finally:
        shutil.rmtree(room or '', ignore_errors=True)


def lay_edit(store, tar, member, name):
    """Lays out what an edit came to."""
    room = store.room()
    try:
        save(tar, member, f'{room}/edit')
        check_edit(f'{room}/edit', name)
        store.put(f'{room}/edit', f'edits/{name}')
    finally:
        shutil.rmtree(room, ignore_errors=True)


def lay(rt, path):
    """Lays a pack out beside the kit."""
    with packed(path, 'r') as stream, tarfile.open(fileobj=stream, mode='r|') as tar:
        first = tar.next()
        if first is None or first.name != HEAD or not first.isreg():
            raise Refused(f'{path} is no pack')
        head = json.load(tar.extractfile(first))
        check_kit(rt, head)
        store = Store(rt)
        lay_members(store, tar)
        while stream.read(1 << 20):
            pass
    if store.new + store.old != head['entries']:
        raise Refused(f'the pack is cut off: {store.new + store.old} of {head["entries"]} entries')
    print(f'{store.kept.at}: {store.new} entries laid out, {store.old} were there')


def tell(rt):
    """Tells of each crate whether its proof is kept."""
    for crate, proof, tests, edits in entries(rt):
        print(crate, 'kept' if proof else 'not kept', *['with its tests'] * bool(tests),
              *[f'and {len(edits)} results of edits'] * bool(edits))


def main():
    words = sys.argv[1:]
    if words in (['--help'], ['-h']):
        print(__doc__, end='')
        return 0
    if len(words) != {'list': 1, 'pack': 2, 'lay': 2}.get(words[0] if words else ''):
        print(__doc__, end='', file=sys.stderr)
        return 64
    try:
        if words[0] == 'list':
            tell(tool())
        else:
            {'pack': pack, 'lay': lay}[words[0]](tool(), words[1])
    except (Refused, OSError, tarfile.TarError, ValueError, KeyError, TypeError) as why:
        print(f'kept.py: {why}', file=sys.stderr)
        return 1
    return 0


if __name__ == '__main__':
    sys.exit(main())
