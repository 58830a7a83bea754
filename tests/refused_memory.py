#!/usr/bin/env python3
"""Refuses each allocation in turn: `refused_memory.py [PROGRAM]`, at the top of the repository; a C
compiler `cc` has to be there.

For a case of each command the program is run with nothing refused, which has to end with the status
0, and then with its first allocation refused, with its second, and so on for as many as it makes.
Each of these has to end with the status 7, with the note of want of memory and nothing on standard
output; or as if none were refused, where that allocation is not needed (room that is given back, or
a thread in whose place its starter works). Prints for each case how many allocations there are and
how many of them are not needed, or the first run that ends otherwise. The last line is
`N passed, M failed`, which counts cases; the status is 1 if one failed. The program is
crates/mat_main/out/mat_main if none is named.
"""
import os
import shutil
import subprocess
import sys
import tempfile

# Refuses the allocation with the number in REFUSED, counted from 1; to grow what was taken counts
# as one. The file that REACHED names is made where there is such an allocation.
REFUSING = r'''
#define _GNU_SOURCE
#include <dlfcn.h>
#include <errno.h>
#include <fcntl.h>
#include <stdlib.h>
#include <unistd.h>
static long refused = -1, count = 0;
static int refuses(void) {
    if (refused < 0) { const char *text = getenv("REFUSED"); refused = text ? atol(text) : 0; }
    if (__atomic_add_fetch(&count, 1, __ATOMIC_RELAXED) != refused) return 0;
    close(open(getenv("REACHED"), O_WRONLY | O_CREAT, 0600));
    return 1;
}
void *malloc(size_t size) {
    static void *(*real)(size_t);
    if (!real) real = (void *(*)(size_t))dlsym(RTLD_NEXT, "malloc");
    return refuses() ? NULL : real(size);
}
void *realloc(void *old, size_t size) {
    static void *(*real)(void *, size_t);
    if (!real) real = (void *(*)(void *, size_t))dlsym(RTLD_NEXT, "realloc");
    return refuses() ? NULL : real(old, size);
}
void *aligned_alloc(size_t alignment, size_t size) {
    static void *(*real)(size_t, size_t);
    if (!real) real = (void *(*)(size_t, size_t))dlsym(RTLD_NEXT, "aligned_alloc");
    return refuses() ? NULL : real(alignment, size);
}
int posix_memalign(void **to, size_t alignment, size_t size) {
    static int (*real)(void **, size_t, size_t);
    if (!real) real = (int (*)(void **, size_t, size_t))dlsym(RTLD_NEXT, "posix_memalign");
    return refuses() ? ENOMEM : real(to, alignment, size);
}
'''

# After how many seconds a run is killed.
LONGEST = 120
ASSIGNMENT = ('matroids 1\npair 4\nweights 5 4 4 1\npartition 2\nclass 1 0 1\nclass 1 2 3\n'
              'partition 2\nclass 1 0 2\nclass 1 1 3\nend\n')
CERTIFICATE = ('certificate 1\nanswer intersect 4 2\nrung 0 0\nset\nfirst 5 4 4 1\n'
               'second 0 0 0 0\nrung 1 5\nset 0\nfirst 5 4 4 1\nsecond 0 0 0 0\nrung 2 8\n'
               'set 1 2\nfirst 4 4 3 1\nsecond 1 0 1 0\ncut\nend\n')
GAMMOID = ('matroids 1\npair 3\nweights 2 1 3\ngammoid 6 4\nsources 0 1\ntargets 3 4 5\narc 0 2\n'
           'arc 2 3\narc 1 4\narc 2 5\nunion 2\nuniform 1\ndual\ntransversal 2\nset 0 1\nset 1 2\n'
           'end\n')
KINDS = ('matroids 1\npair 4\nweights 4 3 2 1\ngraphic 4\nedge 0 1\nedge 1 2\nedge 0 2\nedge 2 3\n'
         'gf2 3\ncolumn 011\ncolumn 101\ncolumn 110\ncolumn 001\nend\n')
OTHERS = ('matroids 1\npair 3\nweights 2 1 3\ngammoid 6 4\nsources 0 1\ntargets 3 4 5\narc 0 2\n'
          'arc 2 3\narc 1 4\narc 2 5\nlaminar 2\nset 2 0 1 2\nset 1 1 2\nend\n')
GRAPH = ('matroids 1\nlist 6 1\nweights 3 1 4 1 5 9\ngraphic 4\nedge 0 1\nedge 0 2\nedge 0 3\n'
         'edge 1 2\nedge 1 3\nedge 2 3\nend\n')
ROOTED = 'matroids 1\nrooted 3 4 0\narc 0 1 5\narc 0 2 2\narc 2 1 1\narc 1 2 0\nend\n'
NAMED = ('matroids 2\npair 3\nelements a b c\nweights 1 2 3\npartition 2\nclass 1 a\nclass 1 c b\n'
         'restrict c a\nuniform 2\nend\n')
NAMED_ROOT = ('matroids 2\nrooted 3 2\nelements p q\nvertices A B C\nroot B\narc A B 1\n'
              'arc B C 2\nend\n')
TREES = 'matroids 1\ngraph 4 6\nedge 0 1\nedge 0 2\nedge 0 3\nedge 1 2\nedge 1 3\nedge 2 3\nend\n'
COLOURED = 'matroids 1\ncoloured 3 3 2\nedge 0 1 0 4\nedge 1 2 0 3\nedge 0 2 1 2\nend\n'
TABLE = 'matroids 1\ntable 2 2 3\ncell 0 0 3\ncell 0 1 2\ncell 1 0 1\nend\n'
LINKED = ('matroids 1\nlist 2 1\nweights 1 2\ngammoid 5 4\nsources 0 1\ntargets 3 4\narc 0 2\n'
          'arc 1 2\narc 2 3\narc 2 4\nend\n')
FAMILY = 'matroids 1\nlist 2 1\nweights 1 2\ntransversal 1\nset 0 1\nend\n'
FIVE = 'matroids 1\nlist 5 1\nweights 0 0 0 0 0\nuniform 2\nend\n'
TWO_TREES = 'matroids 1\nrooted 3 4 0\narc 0 1 0\narc 0 2 0\narc 1 2 0\narc 2 1 0\nend\n'
ONE_TREE = 'matroids 1\nrooted 3 3 0\narc 0 1 0\narc 0 2 0\narc 2 1 0\nend\n'
LIST = 'jobs 1\njob best graph.txt\njob trees 2 trees.txt\njob disjoint 2 rooted.txt\nend\n'
FILES = {'assignment.txt': ASSIGNMENT, 'certificate.txt': CERTIFICATE, 'gammoid.txt': GAMMOID,
         'graph.txt': GRAPH, 'rooted.txt': ROOTED, 'trees.txt': TREES, 'coloured.txt': COLOURED,
         'table.txt': TABLE, 'list.txt': LIST, 'named.txt': NAMED, 'named_root.txt': NAMED_ROOT,
         'kinds.txt': KINDS, 'others.txt': OTHERS, 'linked.txt': LINKED, 'family.txt': FAMILY,
         'five.txt': FIVE, 'two_trees.txt': TWO_TREES, 'one_tree.txt': ONE_TREE}
# Files that the program writes before anything is refused.
MADE = {'kinds.cert': 'intersect kinds.txt', 'others.cert': 'intersect others.txt',
        'kinds.wit': 'witness 2 kinds.txt kinds.cert',
        'others.wit': 'witness 2 others.txt others.cert'}
CASES = ['show gammoid.txt', 'show named.txt', 'convert named.txt', 'convert named_root.txt',
         'convert gammoid.txt', 'intersect assignment.txt', 'intersect --workers 4 assignment.txt',
         'intersect gammoid.txt', 'best graph.txt',
         'union graph.txt', 'pack graph.txt', 'cover graph.txt', 'trees 2 trees.txt',
         'trees 3 trees.txt', 'arborescence rooted.txt',
         'disjoint 1 rooted.txt', 'disjoint 2 rooted.txt', 'cuts rooted.txt',
         'rainbow coloured.txt', 'assign table.txt',
         'check assignment.txt certificate.txt', 'check --workers 4 assignment.txt certificate.txt',
         'witness 2 kinds.txt kinds.cert', 'witness 2 others.txt others.cert',
         'verify 2 kinds.txt kinds.cert kinds.wit', 'verify 2 others.txt others.cert others.wit',
         'sample pair 8 7', 'sample list 6 7',
         'sample graph 6 7', 'sample rooted 6 15', 'sample table 6 7', 'batch list.txt',
         'batch --workers 4 list.txt', 'best linked.txt', 'best family.txt',
         'pack five.txt', 'cover five.txt', 'disjoint 2 two_trees.txt', 'disjoint 2 one_tree.txt']


class Wrong(Exception):
    """What is wrong with a case."""


def ended(program, library, folder, words, number):
    """The status of a run, its output and its notes, where the allocation with this number is
    refused, and whether there was one."""
    reached = os.path.join(folder, 'reached')
    environment = dict(os.environ, LD_PRELOAD=library, REFUSED=str(number), REACHED=reached)
    try:
        run = subprocess.run([program] + words, cwd=folder, env=environment, capture_output=True,
                             timeout=LONGEST, check=False)
    except subprocess.TimeoutExpired as fault:
        raise Wrong(f'with allocation {number} refused: not ended after {LONGEST} s') from fault
    found = os.path.exists(reached)
    if found:
        os.remove(reached)
    return (run.returncode, run.stdout, run.stderr), found


def allocations(program, library, folder, words):
    """How many allocations a case makes, and how many of them are not needed: each is refused in
    turn."""
    whole, _ = ended(program, library, folder, words, 0)
    if whole[0] != 0:
        raise Wrong(f'with nothing refused: {whole}')
    number = needless = 0
    while True:
        number += 1
        end, found = ended(program, library, folder, words, number)
        if not found:
            return number - 1, needless
        if end == whole:
            needless += 1
        elif end != (7, b'', b'refused: memory\n'):
            raise Wrong(f'with allocation {number} refused: {end}')


def is_right(program, library, folder, case):
    """Tells of a case, and whether each run of it ended as it has to. A case without an allocation
    would test nothing."""
    try:
        total, needless = allocations(program, library, folder, case.split())
        if total == 0:
            raise Wrong('no allocation was seen')
    except Wrong as wrong:
        print(f'{case}: {wrong}', flush=True)
        return False
    print(f'{case}: {total}, of which {needless} are not needed', flush=True)
    return True


def main():
    program = os.path.abspath(sys.argv[1] if len(sys.argv) > 1 else 'crates/mat_main/out/mat_main')
    if not os.access(program, os.X_OK):
        sys.exit(f'refused_memory.py: {program}: there is no such program; '
                 './matbench --version puts it there')
    if not shutil.which('cc'):
        sys.exit('refused_memory.py: there is no C compiler cc')
    with tempfile.TemporaryDirectory() as folder:
        source, library = os.path.join(folder, 'refusing.c'), os.path.join(folder, 'refusing.so')
        with open(source, 'w') as to:
            to.write(REFUSING)
        subprocess.run(['cc', '-shared', '-fPIC', '-O1', source, '-o', library, '-ldl'], check=True)
        for name, text in FILES.items():
            with open(os.path.join(folder, name), 'w') as to:
                to.write(text)
        for name, words in MADE.items():
            with open(os.path.join(folder, name), 'wb') as to:
                subprocess.run([program] + words.split(), cwd=folder, stdout=to, check=False)
        failed = sum(not is_right(program, library, folder, case) for case in CASES)
    print(f'{len(CASES) - failed} passed, {failed} failed')
    sys.exit(1 if failed else 0)


if __name__ == '__main__':
    main()
