"""Why something that a person gave is not taken."""
from __future__ import annotations


class InputFault(ValueError):
    """A table, a file or a word of the command line that is not taken: the text says where, what is
    wrong, and what is taken, in words for people."""
