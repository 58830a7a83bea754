"""Texts in files."""
from __future__ import annotations

import os
from pathlib import Path
from typing import TYPE_CHECKING

from matbench.descriptions import MOST_OF_CERTIFICATE
from matbench.faults import InputFault

if TYPE_CHECKING:
    from collections.abc import Mapping
    from typing import TypeAlias

#: The path of a file.
PathLike: TypeAlias = "str | os.PathLike[str]"


def read_text(path: PathLike) -> str:
    """The text of a file in UTF-8, with at most as many bytes as a certificate may have. Raises
    InputFault."""
    name = os.fspath(path)
    try:
        with open(path, "rb") as file:
            content = file.read(MOST_OF_CERTIFICATE + 1)
    except (OSError, ValueError) as error:
        raise InputFault(f"{name}: {getattr(error, 'strerror', None) or error}") from error
    if len(content) > MOST_OF_CERTIFICATE:
        raise InputFault(f"{name}: it has more than {MOST_OF_CERTIFICATE:,} bytes")
    try:
        return content.decode("utf-8-sig")
    except UnicodeDecodeError:
        raise InputFault(f"{name}: this is no text in UTF-8") from None


def write_folder(folder: PathLike, files: Mapping[str, str], old: str) -> None:
    """Writes files into a folder, which is made if it is not there. Files of an earlier proof,
    whose names fit the pattern `old`, are removed. Raises InputFault."""
    try:
        os.makedirs(folder, exist_ok=True)
        for path in Path(folder).glob(old):
            path.unlink()
        for name, text in files.items():
            Path(folder, name).write_bytes(text.encode())
    except OSError as error:
        raise InputFault(f"{os.fspath(folder)} cannot be written: {error.strerror}") from error
