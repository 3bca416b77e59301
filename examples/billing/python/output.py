"""Standard output and standard error, for programs whose exit status is 2 if the output cannot be written."""

from __future__ import annotations

import os


def write(descriptor: int, data: bytes) -> None:
    """Writes all, with no buffer: so a full disk is an OSError here, and not an exit status of Python's own when the program ends."""
    while data:
        data = data[os.write(descriptor, data) :]


def complain(words: bytes) -> int:
    """A sentence on standard error, if there is one; the exit status of trouble."""
    try:
        write(2, words + b"\n")
    except OSError:
        pass
    return 2


def print_all(program: bytes, output: bytes, status: int) -> int:
    """Writes the output; gives the exit status."""
    try:
        write(1, output)
    except OSError:
        return complain(program + b": standard output cannot be written to")
    return status
