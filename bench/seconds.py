#!/usr/bin/env python3
"""Measures the processor seconds of each crate's proof, tests and edits.

    bench/seconds.py COMMAND [WORD..]    while a command runs, as `rt ci`
    bench/seconds.py --of PID            while a process runs that was begun before

At the end it writes, on standard output, a line for each crate: its name, and the seconds of its
proof, of the proof with its tests, and of the tries of its edits with the check that they begin
with, `-` for none: the form of launcher/seconds.txt. A crate that was kept has no line.

The seconds are those of the provers below the command, in user and in system mode, as /proc tells
them every 0.4 seconds: what a prover does after it was last seen is missing. What runs beside makes
them more: take an idle machine. TERM ends it early, and the command with it. The status is that of
the command, and 0 for --of. Needs Linux and python3.
"""
import collections
import os
import signal
import subprocess
import sys
import threading

PAUSE = 0.4
KINDS = ['proof', 'tests', 'edits']


def fields_of(process):
    """The parent of a process, its name, when it began, and its ticks with those of its children
    that ended."""
    with open(f'/proc/{process}/stat', 'rb') as it:
        head, _, tail = it.read().rpartition(b')')
    rest = tail.split()
    return rest[1].decode(), head.partition(b'(')[2], rest[19], sum(int(it) for it in rest[11:15])


def below(top, every):
    """The processes that a process started, with those that these started."""
    children = collections.defaultdict(list)
    for process, found in every.items():
        children[found[0]].append(process)
    seen, left = [], [top]
    while left:
        more = children[left.pop()]
        seen += more
        left += more
    return seen


def task_of(process):
    """The crate that a prover proves, and for what."""
    with open(f'/proc/{process}/cmdline', 'rb') as it:
        words = it.read().decode(errors='replace').split('\0')
    folder = os.readlink(f'/proc/{process}/cwd')
    crate = words[words.index('--crate-name') + 1]
    if '/rt-edit-' in folder:
        return crate, 'edits'
    return crate, 'tests' if '--test' in words else 'proof'


class Watch:
    """What was seen of the provers below a process."""

    def __init__(self, top):
        self.top, self.ticks, self.tasks = str(top), {}, {}

    def look(self):
        """Reads the ticks of each prover now."""
        every = {}
        for process in filter(str.isdigit, os.listdir('/proc')):
            try:
                every[process] = fields_of(process)
            except OSError:
                pass
        for process in below(self.top, every):
            _, name, begun, ticks = every[process]
            try:
                if name == b'rattle' and (process, begun) not in self.tasks:
                    self.tasks[process, begun] = task_of(process)
                if (process, begun) in self.tasks:
                    self.ticks[process, begun] = ticks
            except (OSError, ValueError, IndexError):
                pass

    def lines(self):
        """The lines of the crates, in the order of their names."""
        seconds = collections.defaultdict(lambda: dict.fromkeys(KINDS, 0))
        for prover, (crate, kind) in self.tasks.items():
            seconds[crate][kind] += self.ticks.get(prover, 0) / os.sysconf('SC_CLK_TCK')
        for crate in sorted(seconds):
            found = [seconds[crate][kind] for kind in KINDS]
            yield ' '.join([crate] + [str(round(it)) if it else '-' for it in found])


def is_there(process):
    """Whether a process runs."""
    try:
        with open(f'/proc/{process}/stat', 'rb') as it:
            return it.read().rpartition(b')')[2].split()[0] not in (b'Z', b'X')
    except OSError:
        return False


def main():
    words = sys.argv[1:]
    if len(words) == 2 and words[0] == '--of' and words[1].isdigit():
        command, top = None, words[1]
    elif words and not words[0].startswith('-'):
        command = subprocess.Popen(words, stdout=2)
        top = command.pid
        # (Ctrl-C reaches the command too, and this waits for its end)
        signal.signal(signal.SIGINT, signal.SIG_IGN)
    else:
        print(__doc__, file=sys.stderr)
        return 64
    watch, ended = Watch(top), threading.Event()
    signal.signal(signal.SIGTERM, lambda *_: ended.set())
    while is_there(top) and not ended.wait(PAUSE):
        watch.look()
    if command and ended.is_set():
        command.terminate()
    print(*watch.lines(), sep='\n', flush=True)
    return command.wait() if command else 0


if __name__ == '__main__':
    sys.exit(main())
