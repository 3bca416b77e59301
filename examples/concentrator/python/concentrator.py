"""concentrator.py PATTERN PAGES: gathers a tape from pages that arrive newest first, and prints its litres.

After each page it asks whether the letters held can be the end of a tape. If not, the page is fetched again at once, and not when the whole
tape has come and is refused. The exit status is 0 if the tape is read, 1 if it is refused, and 2 for trouble: a file that cannot be read, a
line of pages without a tab, output that cannot be written.
"""

from __future__ import annotations

import os
import sys
from typing import Iterator, List

from output import complain, print_all
from wumbyra import Desk, Pattern, Refused


class Trouble(Exception):
    """A file that cannot be used; its argument is a sentence in bytes, since a file's name may be in any encoding."""


def refusal(refused: Refused) -> bytes:
    return b"refused\t%d\t%d\n" % (refused.number, refused.value)


def is_unreadable(desk: Desk) -> bool:
    """Whether no tape of the pattern ends with the letters held: from no line, with flag 1, can they be read. Ask with letters held."""
    return desk.words[2 * len(desk.letters) + 1] == 0


def take(desk: Desk, page: bytes, good: bool) -> Iterator[bytes]:
    """A page, and whether its radio check is good, which is known only when all of it has come. Gives what is printed."""
    try:
        held = desk.put(page)
    except Refused as refused:
        yield refusal(refused)
        return
    yield b"put\t%d\n" % held
    if is_unreadable(desk):
        yield b"unreadable\t%d\n" % held
    elif good:
        return
    yield b"withdrawn\t%d\n" % desk.withdraw()


def litres_of(pattern: Pattern, tape: bytes) -> Iterator[bytes]:
    code, bits, _ = pattern.parse(tape)
    yield b"tape\t%s\n" % tape
    for account, litres in enumerate(pattern.totals(code, bits)):
        if litres:
            yield b"account\t%d\t%d\n" % (account, litres)


def read(path: bytes) -> bytes:
    try:
        with open(path, "rb") as source:
            return source.read()
    except OSError:
        raise Trouble(b"%s cannot be read" % path) from None


def run(pattern_file: bytes, pages_file: bytes) -> Iterator[bytes]:
    text, pages = read(pattern_file), read(pages_file)
    pattern = Pattern(text)
    desk = Desk(pattern)
    # The pages stand in a file here: `good` or `bad`, a tab, and the letters.
    lines = pages.split(b"\n")
    if not lines[-1]:
        lines.pop()  # nothing stands after the last line end
    for line in lines:
        check, tab, page = line.partition(b"\t")
        if not tab:
            raise Trouble(b"a line of pages has no tab")
        yield from take(desk, page, check == b"good")
    yield from litres_of(pattern, desk.letters)


def main(arguments: List[bytes]) -> int:
    if len(arguments) != 2:
        return complain(b"usage: concentrator PATTERN PAGES")
    said: List[bytes] = []
    status = 0
    try:
        for line in run(*arguments):
            said.append(line)
    except Refused as refused:
        said.append(refusal(refused))
        status = 1
    except Trouble as trouble:
        status = complain(b"concentrator: %s" % trouble.args[0])
    return print_all(b"concentrator", b"".join(said), status)


if __name__ == "__main__":
    sys.exit(main([os.fsencode(argument) for argument in sys.argv[1:]]))
