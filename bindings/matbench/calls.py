"""Calls of the program over files in memory, by words as on its command line."""
from __future__ import annotations

import ctypes
import functools
import mmap
from collections.abc import Mapping, Sequence
from dataclasses import dataclass

from matbench import library, program
from matbench.descriptions import Description
from matbench.refusals import BY_STATUS, BadDescription, FaultyText, MatbenchError, OutOfMemory
from matbench.waiting import interruptibly

#: Bytes in which each answer has room, but that of batch.
ROOM = 1 << 26
_NOTE_ROOM = 256
#: Of texts of so many bytes in all, without the word union, none was found that takes 0.1 seconds.
_SHORT = 400
#: What a fault of a text without a line end says besides: it is most likely the name of a file.
_NO_FILE = "a str is the text itself: give the path of a file as pathlib.Path"


@dataclass(frozen=True)
class Ended:
    """How a call ended: the program's exit status, what it wrote, and the note of a refusal, which
    is empty where the status is 0."""

    status: int
    output: bytes
    note: str


def _memory(room: int) -> mmap.mmap:
    """So many bytes, which take memory only where they are written."""
    try:
        return mmap.mmap(-1, max(room, 1), flags=mmap.MAP_PRIVATE | mmap.MAP_ANONYMOUS)
    except OSError as error:
        raise OutOfMemory(OutOfMemory.status, "refused: memory") from error


def _is_short(texts: Sequence[bytes]) -> bool:
    """Whether a call about these texts takes no longer than anyone waits before Ctrl-C."""
    return 0 < sum(map(len, texts)) <= _SHORT and not any(b"union" in text for text in texts)


def call(words: Sequence[str], files: Mapping[str, bytes], room: int = ROOM,
         timeout: float | None = None) -> Ended:
    """Does what the program does for these words, such as ["intersect", "f"], over these files by
    their names, and raises nothing for a refusal. The output has room in so many bytes; a longer
    one ends with the status 6 and is cut off. After `timeout` seconds it raises TimeoutError."""
    if any("\0" in text for text in [*words, *files]):
        raise ValueError("a word or a name with a zero byte")
    if room < 0:
        raise ValueError(f"there is no room of {room} bytes")
    path = _program()
    if path:
        return Ended(*program.run(path, words, files, room, timeout))
    return _call_of_library(words, files, room, timeout)


@functools.lru_cache(maxsize=None)
def _program() -> str | None:
    """The program, if calls are to be of it: it is named and the library is not, or there is no
    library. Else None."""
    if library.named():
        return None
    return program.named() or (None if library.found() else program.found())


def call_at_once(words: Sequence[str], files: Mapping[str, bytes], room: int = ROOM) -> Ended:
    """A call that is known to be short: Ctrl-C waits for its end, and no thread is started."""
    path = _program()
    if path:
        return Ended(*program.run(path, words, files, room, None))
    return _call_of_library(words, files, room, None, True)


def _call_of_library(words: Sequence[str], files: Mapping[str, bytes], room: int,
                     timeout: float | None, is_quick: bool = False) -> Ended:
    """A call of the library's function, in this process. One that is quick starts no thread."""
    texts = [word.encode() for word in words]
    names = [name.encode() for name in files]
    function = library.load().matbench_call
    memory = _memory(room)
    start = ctypes.c_char.from_buffer(memory)
    note = ctypes.create_string_buffer(_NOTE_ROOM)
    output = library.Buffer(ctypes.addressof(start), room, 0)
    noted = library.Buffer(ctypes.addressof(note), _NOTE_ROOM, 0)
    given = (library.File * len(files))(
        *(library.File(name, data, len(data)) for name, data in zip(names, files.values())))
    listed = (ctypes.c_char_p * (len(texts) + 1))(*texts, None)

    def run() -> int:
        return int(function(listed, given, ctypes.c_size_t(len(files)), ctypes.byref(output),
                            ctypes.byref(noted)))

    is_quick = is_quick or timeout is None and _is_short(list(files.values()))
    status = run() if is_quick else interruptibly(run, timeout)
    return Ended(status, memory[: output.length], note.raw[: noted.length].decode().rstrip("\n"))


def _refusal(ended: Ended, texts: tuple[object, ...]) -> MatbenchError:
    """The refusal of a call about these texts. If a Description is at fault, whose text its user
    has not written, it has the line that is wrong."""
    error = BY_STATUS.get(ended.status, MatbenchError)(ended.status, ended.note)
    made = [it for it in texts if isinstance(it, Description)]
    if isinstance(error, BadDescription) and len(made) == 1:
        line = made[0].text.decode("latin1").split("\n")[error.line - 1]
        error = BadDescription(ended.status, ended.note, f"the line is {line[:200]!r}")
    return error


def done(ended: Ended, *texts: object) -> str:
    """The output of a call about these texts that was not refused. Else raises the refusal."""
    if ended.status:
        error = _refusal(ended, texts)
        is_name = any(isinstance(text, str) and "\n" not in text for text in texts)
        if isinstance(error, FaultyText) and is_name and hasattr(error, "add_note"):
            error.add_note(_NO_FILE)
        raise error
    return ended.output.decode("ascii")
