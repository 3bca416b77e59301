"""What a pattern cannot say of days: how many there must be, and how many digits each has."""

from __future__ import annotations

import datetime
from typing import Iterator, List

from fields import Reading


def days_of(tape: bytes) -> List[bytes]:
    """The days of a tape, each without the `D` that ends it. The last one is unfinished: no `D` has ended it."""
    return tape.split(b"D")


def date_after(start: int, days: int) -> int:
    """The date so many days after a date that the library takes."""
    date = datetime.date(start // 10000, start // 100 % 100, start % 100) + datetime.timedelta(days)
    return date.year * 10000 + date.month * 100 + date.day


def warnings(tape: bytes, reading: Reading) -> Iterator[str]:
    """Sentences on what does not fit: a `D` is missing or too many, or digits are."""
    *days, unfinished = days_of(tape)
    for past, day in enumerate(days):
        if reading.digits and digits_of(day) != reading.digits:
            yield f"{date_after(reading.start, past):08} has {digits_of(day)} digits, not {reading.digits}"
    reached = date_after(reading.start, len(days))
    if reading.digits and digits_of(unfinished) > reading.digits:
        yield f"{reached:08} has {digits_of(unfinished)} digits so far, over {reading.digits}"
    if reached != reading.read:
        yield f"its days lead to {reached:08}, but it was read on {reading.read:08}"


def digits_of(day: bytes) -> int:
    return sum(48 <= letter <= 57 for letter in day)
