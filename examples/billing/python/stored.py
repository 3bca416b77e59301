"""A code that is stored for later: with its bit count, its pattern, the dates of the reading, the library's version and a checksum.

The library refuses with 8 what is not a whole code of the pattern. Many changed codes are whole codes: another digit is another code,
with other litres. So the checksum is tested first, and nothing is billed from a file that fails it.
"""

from __future__ import annotations

import zlib
from typing import NamedTuple, Optional

from fields import Reading, number, reading
from wumbyra import Code

# More bytes than the longest stored code has.
MOST = 262144
HEX = b"0123456789abcdef"


class Stored(NamedTuple):
    library: int
    reading: Optional[Reading]
    code: Code
    pattern: bytes

    def body(self) -> bytes:
        known = b"-\t-\t-"
        if self.reading:
            start, read, digits = self.reading
            known = b"%08d\t%08d\t%s" % (start, read, str(digits or "-").encode())
        code = self.code.code.hex().encode()
        return b"library\t%d\nread\t%s\nbits\t%d\ncode\t%s\n%s" % (self.library, known, self.code.bits, code, self.pattern)

    def file(self) -> bytes:
        return self.body() + ending(self.body())


class Damaged(Exception):
    """A file whose checksum is wrong."""


def ending(body: bytes) -> bytes:
    """The last line: the CRC-32 of all before it."""
    return b"crc32\t%08x\n" % zlib.crc32(body)


def bytes_of(field: bytes) -> bytes:
    if len(field) % 2 or field.strip(HEX):
        raise ValueError("not hexadecimal")
    return bytes.fromhex(field.decode())


def stored_of(file: bytes) -> Stored:
    """Raises Damaged for a wrong checksum, and ValueError for a file that was not written by `Stored.file`."""
    body, last = file[:-15], file[-15:]
    if len(file) >= MOST or last != ending(body):
        raise Damaged
    *lines, pattern = body.split(b"\n", 4)
    values = []
    for key, line in zip((b"library\t", b"read\t", b"bits\t", b"code\t"), lines):
        if not line.startswith(key):
            raise ValueError("not the line of this key")
        values.append(line[len(key) :])
    library, known, bits, code = values
    return Stored(number(library, 1, 9), reading(known), Code(bytes_of(code), number(bits, 1, 9)), pattern)
