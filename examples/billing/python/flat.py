"""The bill of one flat."""

from __future__ import annotations

import os
from typing import Iterator, List, NamedTuple, Optional, Tuple

import days
from fields import Reading, date, fields_of, line_of, reading
from stored import Damaged, Stored, stored_of
from wumbyra import Code, Pattern, version

# The term of a bill for the whole tape: all dates there are.
ALWAYS = 20000101, 20991231


class Unbilled(Exception):
    """Why a flat has no bill, where it is not the library that refuses."""


class Bill(NamedTuple):
    litres: List[int]
    warnings: List[str]


class Flat:
    """The folder of a flat."""

    def __init__(self, folder: bytes) -> None:
        self.folder = folder

    def path(self, file: str) -> bytes:
        return os.path.join(self.folder, file.encode())

    def has(self, file: str) -> bool:
        """Also if it is a link to nothing: the file was meant to be there."""
        return os.path.lexists(self.path(file))

    def read(self, file: str) -> bytes:
        try:
            with open(self.path(file), "rb") as source:
                return source.read()
        except OSError:
            raise Unbilled(f"{file} cannot be read") from None

    def reading(self) -> Optional[Reading]:
        if not self.has("read.tsv"):
            return None
        try:
            return reading(line_of(self.read("read.tsv")))
        except ValueError:
            raise Unbilled("read.tsv is malformed") from None

    def term(self) -> Optional[Tuple[int, int]]:
        """The first and the last date of the bill; None if the whole tape is billed."""
        if not self.has("term.tsv"):
            return None
        try:
            first, last = map(date, fields_of(line_of(self.read("term.tsv")), 2))
        except ValueError:
            raise Unbilled("term.tsv is malformed") from None
        return first, last

    def code_of_tape(self) -> Stored:
        text, tape, known = self.read("pattern.tsv"), line_of(self.read("tape.txt")), self.reading()
        code, bits, _ = Pattern(text).parse(tape)
        return Stored(version(), known, Code(code, bits), text)

    def stored_code(self) -> Stored:
        try:
            return stored_of(self.read("stored.tsv"))
        except Damaged:
            raise Unbilled("the checksum of stored.tsv is wrong") from None
        except ValueError:
            raise Unbilled("stored.tsv is malformed") from None

    def bill(self, store: bool) -> Bill:
        """The bill by the tape, or by the stored code if there is no tape. Raises Unbilled, the library's Refused, and OSError if the code
        cannot be stored."""
        from_tape = self.has("tape.txt") or not self.has("stored.tsv")
        stored = self.code_of_tape() if from_tape else self.stored_code()
        litres = litres_of(stored, self.term())
        if store and from_tape:
            with open(self.path("stored.tsv"), "wb") as sink:
                sink.write(stored.file())
        return Bill(litres, list(warnings_of(stored)))


def litres_of(stored: Stored, term: Optional[Tuple[int, int]]) -> List[int]:
    if stored.reading is None and term:
        raise Unbilled("term.tsv needs the dates of read.tsv")
    pattern = Pattern(stored.pattern)
    if stored.reading is None:
        return pattern.totals(*stored.code)
    start, first, last = map(parts, (stored.reading.start, *(term or ALWAYS)))
    return pattern.term_totals(*stored.code, start, first, last)


def parts(date: int) -> Tuple[int, int, int]:
    return date // 10000, date // 100 % 100, date % 100


def warnings_of(stored: Stored) -> Iterator[str]:
    if stored.library != version():
        yield f"stored by library {stored.library}, read by {version()}: its litres may be on other accounts"
    if stored.reading:
        yield from days.warnings(Pattern(stored.pattern).flatten(*stored.code), stored.reading)
