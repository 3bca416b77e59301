"""pieces.py PATTERN TAPE [LINE..]: cuts a tape into its days and reads each day by itself.

The root of PATTERN is a `K`, and each of its rounds is a day. A day is read by the pattern made of the day's line and all below it, and its
bits are compared with those of the whole tape's code, at the place where they must lie. For each LINE of the pattern, the pieces that it
covers are cut out and read by themselves too.

Prints a line for each piece: `day` or its line, visit, start, length, letters, first bit in the whole code (`-` if it is not a day), bits,
and code. A line for each account follows: its litres when the piece is read by itself, and when the whole tape is read. The last line says
that all days together are the whole code. The exit status is 0 if that is so, 1 for a refusal, and 2 for trouble with files, arguments or
output.
"""

from __future__ import annotations

import contextlib
import io
import itertools
import os
import pathlib
import sys
from typing import Iterator, List, Tuple

from output import complain, print_all
from wumbyra import Pattern, Refused, Span

NO_SUCH_VISIT = 10
NO_LITRES = bytes.maketrans(b"123456789", 9 * b"0")


class Trouble(Exception):
    """A file or an argument that cannot be used."""


class Differs(Exception):
    """A piece whose bits are not those of the whole code. The reader is proved never to give one."""


class Reading:
    """A tape read by a pattern: its code, the bits of the code as a row of 0 and 1, and the litres of all accounts."""

    def __init__(self, pattern: Pattern, tape: bytes) -> None:
        self.pattern, self.tape = pattern, tape
        self.code, count, _ = pattern.parse(tape)
        self.bits = "".join(f"{byte:08b}" for byte in self.code)[:count]
        self.litres = pattern.totals(self.code, count)

    def spans(self, line: int) -> Iterator[Span]:
        """Where the pieces of a line lie, visit by visit. The reader refuses the visit after the last one with 10."""
        for visit in itertools.count():
            try:
                span = self.pattern.span(self.tape, self.code, len(self.bits), line, visit)
            except Refused as refused:
                if refused.number != NO_SUCH_VISIT:
                    raise
                return
            yield span

    def cut(self, span: Span) -> Tuple[bytes, bytes, bytes]:
        """The letters before a piece, the piece, and the letters after it."""
        end = span.start + span.length
        return self.tape[: span.start], self.tape[span.start : end], self.tape[end:]

    def share(self, span: Span) -> List[int]:
        """The litres of a piece, on the accounts that they have in the whole tape: what the totals lose if all its digits are 0."""
        before, piece, after = self.cut(span)
        rest = Reading(self.pattern, before + piece.translate(NO_LITRES) + after)
        return [all_litres - others for all_litres, others in zip(self.litres, rest.litres)]


def day_line(pattern: Pattern) -> int:
    """The line of a day: under a `K`, all other lines belong to the part it repeats, which is the last line but one."""
    lines = [line.split(b"\t") for line in pattern.text.splitlines()]
    if lines[-1][1] != b"K":
        raise Trouble("the root of the pattern is not a K, so it does not repeat days")
    for place, (_, kind, _, *letters) in enumerate(lines):
        # Else a tape with 0 for other digits might be read in another way, and `share` would be wrong.
        if kind in (b"L", b"R") and 0 < sum(letters[0] <= b"%d" % digit <= letters[-1] for digit in range(10)) < 10:
            raise Trouble(f"line {place} of the pattern takes some digits and not others: the share of a piece cannot be found")
    return len(lines) - 2


def show(name: str, visit: int, whole: Reading, span: Span, first: str, alone: Reading) -> None:
    print(name, visit, *span, alone.tape.decode("latin-1"), first, len(alone.bits), alone.code.hex(), sep="\t")
    for account, litres in enumerate(zip(alone.litres, whole.share(span))):
        if any(litres):
            print("account", account, *litres, sep="\t")


def show_days(whole: Reading, day: int) -> str:
    """Shows all days, and gives the bits that they write together: a 0 before each day, and a 1 after the last one."""
    pattern = whole.pattern.subpattern(day)
    joined = ""
    for visit, span in enumerate(whole.spans(day)):
        alone = Reading(pattern, whole.cut(span)[1])
        joined += "0"
        first = len(joined)
        if not whole.bits.startswith(alone.bits, first):
            raise Differs(f"the bits of day {visit} are not those of the whole code from bit {first} on")
        show("day", visit, whole, span, str(first), alone)
        joined += alone.bits
    return joined + "1"


def show_pieces(whole: Reading, line: int) -> None:
    pattern = whole.pattern.subpattern(line)
    for visit, span in enumerate(whole.spans(line)):
        show(f"line {line}", visit, whole, span, "-", Reading(pattern, whole.cut(span)[1]))


def read(name: str) -> bytes:
    try:
        return pathlib.Path(name).read_bytes()
    except OSError:
        raise Trouble(f"{name} cannot be read") from None


def line_number(pattern: Pattern, argument: str) -> int:
    """`int` alone would take signs, spaces and underscores."""
    if argument not in map(str, range(pattern.lines)):
        raise Trouble(f"{argument} is not a line of the pattern: its lines are 0 to {pattern.lines - 1}")
    return int(argument)


def run(pattern_file: str, tape_file: str, *arguments: str) -> None:
    text, tape = read(pattern_file), read(tape_file)
    if tape.endswith(b"\n"):
        tape = tape[:-1]  # the file's last line end is no letter of the tape
    pattern = Pattern(text)
    lines = [line_number(pattern, argument) for argument in arguments]
    day = day_line(pattern)
    whole = Reading(pattern, tape)
    joined = show_days(whole, day)
    for line in lines:
        show_pieces(whole, line)
    if joined != whole.bits:
        raise Differs("the bits of all days together are not the whole code")
    print("whole", len(whole.bits), whole.code.hex(), "all days together are the whole code", sep="\t")


def answer(arguments: List[str]) -> Tuple[int, str]:
    """The exit status, and a sentence for standard error or nothing."""
    if len(arguments) < 3:
        return 2, "usage: pieces.py PATTERN TAPE [LINE..]"
    try:
        run(*arguments[1:])
    except Refused as refused:
        print("refused", refused.number, refused.value, sep="\t")
        return 1, f"pieces: {refused}"
    except Differs as differs:
        return 1, f"pieces: {differs}"
    except Trouble as trouble:
        return 2, f"pieces: {trouble}"
    return 0, ""


def main(arguments: List[str]) -> int:
    output = io.StringIO()
    with contextlib.redirect_stdout(output):
        status, words = answer(arguments)
    if words:
        complain(os.fsencode(words))
    return print_all(b"pieces", output.getvalue().encode("latin-1"), status)  # letters are printed as the bytes that they are


if __name__ == "__main__":
    sys.exit(main(sys.argv))
