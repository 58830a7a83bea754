"""python3 examples/many/jobs.py: a list of jobs before and after other machines worked on it.

  jobs.py lay LIST RUN            lays out the folder RUN: what is to be sent, and RUN/todo with a
                                  line for each job that has no certificate yet
  jobs.py take RUN SHARE          takes what came back in a folder that others can write, SHARE/out,
                                  into RUN/out
  jobs.py judge LIST RUN [W]      judges every certificate by `check` on this machine, W at a time
                                  (else 1), and says what is right

A line of LIST has an id, the words of a solving command, and a file, with a tab between them; the
file is named from the folder of the call. In RUN
  in/ID                           is the canonical text of the file, which is what is sent: without
                                  names, and judged before
  out/ID.cert, out/ID.status      is what came back: a certificate; and the status, the host and the
                                  note
  right/ID.cert                   is a copy of the certificate that was judged right, and
  refused                         has the ids of those that were not.
RUN is private: no other machine writes there. The program is crates/mat_main/out/mat_main unless
the variable MATBENCH names another.
"""
import os
import re
import shutil
import signal
import stat
import subprocess
import sys
from concurrent.futures import ThreadPoolExecutor

TOP = os.path.dirname(os.path.dirname(os.path.dirname(os.path.abspath(__file__))))
PROGRAM = os.environ.get("MATBENCH") or os.path.join(TOP, "crates/mat_main/out/mat_main")
ID = re.compile(r"[A-Za-z0-9][A-Za-z0-9_-]{0,63}")
WORDS = re.compile(r"best|intersect|union|pack|cover|arborescence|rainbow|assign"
                   r"|(trees|disjoint) ([1-9]|[1-5][0-9]|6[0-4])")
LONGEST_DESCRIPTION = 4194304
LONGEST_CERTIFICATE = 67108864
LONGEST_STATUS = 400


def jobs_of(name):
    """The jobs of a list: id, words and file."""
    with open(name, encoding="utf-8", errors="surrogateescape", newline="\n") as file:
        lines = file.read().split("\n")
    if lines.pop():
        sys.exit(f"jobs.py: {name}: the last line has no newline")
    jobs = {}
    for number, line in enumerate(lines, 1):
        parts = line.split("\t")
        are_three = len(parts) == 3 and parts[2]
        if not are_three or not ID.fullmatch(parts[0]) or not WORDS.fullmatch(parts[1]):
            sys.exit(f"jobs.py: {name}: line {number} is not ID, WORDS and FILE "
                     "with a tab between them")
        if parts[0] in jobs:
            sys.exit(f"jobs.py: {name}: line {number}: this id stood before")
        jobs[parts[0]] = (parts[1], os.path.abspath(parts[2]))
    return jobs


def program(*words):
    """The status, the output and the note of a call of the program."""
    done = subprocess.run([PROGRAM, *words], stdin=subprocess.DEVNULL, capture_output=True,
                          check=False)
    return done.returncode, done.stdout, done.stderr.decode("ascii", "replace").strip()


def write(name, data):
    """Writes a file by a new one in the same folder, which then gets the name."""
    with open(name + ".new", "wb") as file:
        file.write(data)
    os.replace(name + ".new", name)


def remove(name):
    """Removes whatever has the name, and follows no link."""
    if os.path.isdir(name) and not os.path.islink(name):
        shutil.rmtree(name)
    elif os.path.lexists(name):
        os.remove(name)


def read_plain(name, most):
    """The bytes of a plain file, of a longer one a byte more than so many; None where there is
    none. It follows no link, and waits for no pipe."""
    try:
        handle = os.open(name, os.O_RDONLY | os.O_NOFOLLOW | os.O_NONBLOCK)
    except FileNotFoundError:
        return None
    with open(handle, "rb") as file:
        if not stat.S_ISREG(os.fstat(handle).st_mode):
            raise OSError("no plain file")
        return file.read(most + 1)


def printable(data):
    """What a host said, as one line without signs that move a cursor."""
    return "".join(chr(byte) if 32 <= byte < 127 else " " for byte in data[:LONGEST_STATUS]).strip()


def lay(jobs, run):
    """Lays out what is to be done, and removes what was refused or left unfinished before."""
    for folder in ("in", "out", "right"):
        os.makedirs(os.path.join(run, folder), exist_ok=True)
    for folder in ("in", "out", "right"):
        for name in os.listdir(os.path.join(run, folder)):
            if ".part." in name or name.endswith(".new"):
                os.remove(os.path.join(run, folder, name))
    refused = (read_plain(os.path.join(run, "refused"), 1 << 30) or b"").decode().split()
    todo, faulty = [], 0
    for name, (words, description) in jobs.items():
        certificate = os.path.join(run, "out", name + ".cert")
        if name in refused:
            remove(certificate)
        if os.path.lexists(certificate):
            continue
        status, text, note = program("show", description)
        if status != 0:
            faulty += 1
            print(f"not sent: {name}: {note}")
            write(os.path.join(run, "out", name + ".status"),
                  f"{status} on this machine: {note}\n".encode())
            continue
        remove(os.path.join(run, "out", name + ".status"))
        write(os.path.join(run, "in", name), text)
        todo.append(f"{name}\t{words}\n")
    write(os.path.join(run, "todo"), "".join(todo).encode())
    write(os.path.join(run, "refused"), b"")
    print(f"{len(todo)} to do, {len(jobs) - len(todo) - faulty} there, {faulty} not sent")


def take(run, share):
    """Takes what came back in a folder that others can write."""
    todo = [line.split("\t")[0] for line in open(os.path.join(run, "todo"), encoding="ascii")]
    for name in todo:
        for suffix, most in ((".status", LONGEST_STATUS), (".cert", LONGEST_CERTIFICATE)):
            try:
                data = read_plain(os.path.join(share, "out", name + suffix), most)
            except OSError:
                print(f"not taken: {name}{suffix}: no plain file")
                continue
            if data is not None:
                write(os.path.join(run, "out", name + suffix), data)


def is_asked(data, words):
    """Whether a certificate's header has the command of the job, and its number where it has one.
    `check` judges what the certificate says it answers: the two trees of `trees 2` are a right
    answer, but to `trees 3` they are none."""
    head, asked = data.split(b"\n", 2)[1].decode().split(), words.split()
    return head[1] == asked[0] and (len(asked) == 1 or head[3] == asked[1])


def fault_of(run, name, words, description):
    """What is wrong with the certificate of a job: nothing, so a copy of the bytes that were judged
    stands in right/; or the note; or None where there is no certificate."""
    kept = os.path.join(run, "right", name + ".cert")
    remove(kept)
    try:
        data = read_plain(os.path.join(run, "out", name + ".cert"), LONGEST_CERTIFICATE)
    except OSError:
        return "no plain file"
    if data is None:
        return None
    judged = kept + ".part.judged"
    with open(judged, "wb") as file:
        file.write(data)
    status, output, note = program("check", description, judged)
    if status == 0 and output == b"yes\n":
        if is_asked(data, words):
            os.replace(judged, kept)
            return ""
        note = f"an answer to another question than {words}"
    os.remove(judged)
    note = note or f"check ended with {status}"
    sent = read_plain(os.path.join(run, "in", name), LONGEST_DESCRIPTION)
    is_as_sent = program("show", description)[1] == sent
    return note if is_as_sent else note + " (its file was changed since it was sent)"


def judge(jobs, run, at_once):
    """Judges all certificates, and counts."""
    with ThreadPoolExecutor(at_once) as workers:
        faults = list(workers.map(lambda job: fault_of(run, job[0], *job[1]), jobs.items()))
    judged = dict(zip(jobs, faults))
    refused = [name for name, fault in judged.items() if fault]
    missing = [name for name, fault in judged.items() if fault is None]
    write(os.path.join(run, "refused"), "".join(name + "\n" for name in refused).encode())
    for word, names in (("refused", refused), ("missing", missing)):
        for name in names:
            told = printable(read_plain(os.path.join(run, "out", name + ".status"), LONGEST_STATUS)
                             or b"")
            print(f"{word}: {name}", *([judged[name]] if word == "refused" else []),
                  *([f"status {told}"] if told else []), sep=": ")
    right = len(jobs) - len(refused) - len(missing)
    print(f"{right} right, {len(refused)} refused, {len(missing)} missing")
    sys.exit(1 if refused or missing else 0)


def main():
    """Does what the first word says."""
    signal.signal(signal.SIGPIPE, signal.SIG_DFL)
    word, rest = sys.argv[1] if len(sys.argv) > 1 else "", sys.argv[2:]
    if not os.access(PROGRAM, os.X_OK):
        sys.exit(f"jobs.py: {PROGRAM}: there is no such program; "
                 "./matbench --version puts it there")
    if word == "lay" and len(rest) == 2:
        lay(jobs_of(rest[0]), rest[1])
    elif word == "take" and len(rest) == 2:
        take(*rest)
    elif word == "judge" and (len(rest) == 2 or len(rest) == 3
                              and re.fullmatch("[1-9][0-9]?", rest[2])):
        judge(jobs_of(rest[0]), rest[1], int(rest[2]) if len(rest) == 3 else 1)
    else:
        sys.exit(__doc__)


main()
