"""What one changed bit does to a stored code."""

from __future__ import annotations

from stored import Stored, ending
from wumbyra import Code, Pattern, Refused


def flipped(code: Code, bit: int) -> Code:
    changed = bytearray(code.code)
    changed[bit // 8] ^= 128 >> bit % 8
    return Code(bytes(changed), code.bits)


def flips(stored: Stored) -> bytes:
    """Counts, over all bits of a stored code: what the library refuses, what it takes, and what the checksum finds."""
    pattern = Pattern(stored.pattern)
    right = pattern.totals(*stored.code)
    refused = other = same = found = 0
    for bit in range(stored.code.bits):
        code = flipped(stored.code, bit)
        changed = Stored(stored.library, stored.reading, code, stored.pattern)
        found += ending(changed.body()) != ending(stored.body())
        try:
            litres = pattern.totals(*code)
        except Refused:
            refused += 1
            continue
        if litres == right:
            same += 1
        else:
            other += 1
    counts = {"bits flipped, one at a time": stored.code.bits, "refused": refused, "taken, with other litres": other}
    counts.update({"taken, with the same litres": same, "found by the checksum": found})
    return "".join(f"{words}\t{count}\n" for words, count in counts.items()).encode()
