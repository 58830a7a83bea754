"""The exceptions of the package: one for each way in which the program refuses, and NoLibrary."""
from __future__ import annotations


class NoLibrary(OSError):
    """libmatbench.so is not there, or cannot be loaded."""


class MatbenchError(Exception):
    """A call that was refused. `status` is the program's exit status, `note` its note, such as
    "refused: description 2 Version line 1". `sentence` says more where this package knows more."""

    status = -1

    def __init__(self, status: int, note: str, sentence: str = ""):
        super().__init__(status, note, *([sentence] if sentence else []))
        self.status, self.note, self.sentence = status, note, sentence

    def __str__(self) -> str:
        note = self.note or f"status {self.status}"
        return f"{note}: {self.sentence}" if self.sentence else note


class NotRight(MatbenchError):
    """The certificate is not right: `note` names the first clause that fails."""

    status = 1


class UsageError(MatbenchError, ValueError):
    """A number is out of its range, or the words are no command."""

    status = 2


class FaultyText(MatbenchError, ValueError):
    """A text has a fault: its kind by number and name, and the number of its line, from 1.
    docs/FORMATS.md says what each means."""

    def __init__(self, status: int, note: str, sentence: str = ""):
        super().__init__(status, note, sentence)
        kind, name, _, line = note.split()[-4:]
        self.kind, self.name, self.line = int(kind), name, int(line)


class BadDescription(FaultyText):
    """The description has a fault."""

    status = 3


class BadCertificate(FaultyText):
    """The certificate has a fault."""

    status = 4


class ReadFault(MatbenchError):
    """No file of the call has the name."""

    status = 5


class WriteFault(MatbenchError):
    """The output has no room for the answer."""

    status = 6


class OutOfMemory(MatbenchError, MemoryError):
    """There was not enough memory."""

    status = 7


class TooLong(MatbenchError, ValueError):
    """A description or a list of more than 4,194,304 bytes, or a certificate or a witness of more
    than 67,108,864."""

    status = 8


class WrongShape(MatbenchError, ValueError):
    """The form of the problem is not that of the command, or not that of the certificate."""

    status = 9


class Unwitnessed(MatbenchError, ValueError):
    """A matroid is of a kind that has no witnesses."""

    status = 11


class BadWitness(FaultyText):
    """The witness has a fault."""

    status = 12


class BadCost(MatbenchError, ValueError):
    """A cost is below 0 or has a tie, which cuts does not take."""

    status = 13


class BadList(MatbenchError, ValueError):
    """The list of jobs has a fault."""

    status = 14


#: The exception for each exit status of a refusal.
BY_STATUS: dict[int, type[MatbenchError]] = {
    it.status: it
    for it in (NotRight, UsageError, BadDescription, BadCertificate, ReadFault, WriteFault,
               OutOfMemory, TooLong, WrongShape, Unwitnessed, BadWitness, BadCost, BadList)}
