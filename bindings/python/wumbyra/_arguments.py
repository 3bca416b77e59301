"""What calls take, and what they give the library for it: bytes, counts, dates, and codes."""

from __future__ import annotations

import datetime
import functools
import operator
import re
from array import array
from typing import TYPE_CHECKING, Any, Callable, List, NamedTuple, Tuple, TypeVar, Union

if TYPE_CHECKING:
    Words = array[int]
else:
    Words = array  # takes no parameter before Python 3.12
BytesLike = Union[bytes, bytearray, memoryview, Words]
Date = Union[datetime.date, str, Tuple[int, int, int], List[int]]
Given = TypeVar("Given")

ISO_DATE = re.compile("([0-9]{4})-([0-9]{2})-([0-9]{2})")


class Code(NamedTuple):
    """A code: its bytes and how many bits of them are in use.

    Store a checksum or the tape with each code, and test it before you use the code. A refusal with 8 finds some changes of a stored code,
    not all: with one bit changed in a letter of a range it may be another whole code, with other litres.
    """

    code: bytes
    bits: int


class Parsed(NamedTuple):
    """A tape that was read: its code, and its state sets.

    Bit l of words[2 * i + b] says that the letters from position i on can be read from node l on with flag b.
    """

    code: bytes
    bits: int
    words: Words


Coded = Union[Code, Parsed]


def takes_code(call: Callable[..., Given]) -> Callable[..., Given]:
    """Lets a call that takes `code` and `bits` take a `Code` or a `Parsed` in place of both."""

    @functools.wraps(call)
    def taking(*given: Any, **named: Any) -> Given:
        spread: List[Any] = []
        for argument in given:
            spread.extend(argument[:2] if isinstance(argument, (Code, Parsed)) else [argument])
        code = named.get("code")
        if isinstance(code, (Code, Parsed)):
            if "bits" in named:
                raise TypeError(f"{call.__name__}() got its bits twice: a {type(code).__name__} has them")
            named.update(code=code.code, bits=code.bits)
        return call(*spread, **named)

    return taking


def to_bytes(data: BytesLike) -> bytes:
    """A copy of what holds single bytes, or the bytes themselves. Anything else is a TypeError."""
    if isinstance(data, bytes):
        return data
    view = memoryview(data)  # since bytes(5) would be five zeros
    if view.itemsize != 1:
        raise TypeError(f"bytes are due, and the items of this {type(data).__name__} have {view.itemsize} bytes each")
    return bytes(view)


def to_count(number: int, what: str) -> int:
    """A number as the library takes it, in 32 bits, of which ctypes would keep the lowest only.

    No code has so many bits, and no pattern so many nodes, visits or accounts: the greatest number of 32 bits stands for all above it.
    """
    number = operator.index(number)
    if number < 0:
        raise ValueError(f"{what} is a number from 0 on, and {number} is below")
    return min(number, 0xFFFFFFFF)


def _parts(date: Date) -> Tuple[int, ...]:
    if isinstance(date, datetime.date):
        return date.year, date.month, date.day
    if isinstance(date, str):
        found = ISO_DATE.fullmatch(date)
        if not found:
            raise ValueError(f"a date in letters is written as 2024-02-27, and not as {date!r}")
        return tuple(map(int, found.groups()))
    if not isinstance(date, (tuple, list)):  # a set has no order, and bytes would be taken for numbers
        raise TypeError(f"a date is a datetime.date, a text as '2024-02-27' or three numbers, and not of type {type(date).__name__}")
    return tuple(date)


def to_date(date: Date) -> int:
    """A date as the library takes it, in one number, of which 0 is no date. Greater parts would make the number of another date."""
    parts = _parts(date)
    if len(parts) != 3:
        raise ValueError(f"a date has a year, a month and a day, and here are {len(parts)} numbers")
    year, month, day = to_count(parts[0], "a year"), to_count(parts[1], "a month"), to_count(parts[2], "a day")
    return 0 if year > 9999 or month > 99 or day > 99 else year * 10000 + month * 100 + day
