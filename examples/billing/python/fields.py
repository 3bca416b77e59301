"""Fields of the small files beside a tape. A field is bytes: no sign, no space, and no encoding is known."""

from __future__ import annotations

from typing import List, NamedTuple, Optional

DIGITS = b"0123456789"


class Reading(NamedTuple):
    """What is known of a reading: the date of the first letter, the date on which the meter was read, and how many digits a day has."""

    start: int
    read: int
    digits: int  # 0 where days differ


def line_of(file: bytes) -> bytes:
    """The only line of a file, without its line end."""
    return file[:-1] if file.endswith(b"\n") else file


def fields_of(line: bytes, count: int) -> List[bytes]:
    """So many fields, parted by tabs."""
    fields = line.split(b"\t")
    if len(fields) != count:
        raise ValueError("another number of fields")
    return fields


def number(field: bytes, least: int, most: int) -> int:
    """A number of so many digits and nothing else. `int` alone would take signs, spaces and underscores."""
    if not least <= len(field) <= most or field.strip(DIGITS):
        raise ValueError("not such a number")
    return int(field)


def date(field: bytes) -> int:
    """Eight digits: 20240229 is 29 February 2024. The library tests whether there is such a day."""
    return number(field, 8, 8)


def reading(line: bytes) -> Optional[Reading]:
    """The fields of read.tsv, or three times `-` if nothing is known."""
    start, read, digits = fields_of(line, 3)
    if start == read == digits == b"-":
        return None
    return Reading(date(start), date(read), 0 if digits == b"-" else number(digits, 1, 4))
