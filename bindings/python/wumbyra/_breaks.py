"""Where a tape breaks, in the words of the command tapelist.

The words help a person; the two positions are the library's. bin/tapelist has the same in awk, and adds if no line of the pattern takes
the letter. The Rust wrapper has them in src/breaks.rs. tests/tapelist/breaks.tsv holds the three together.
"""

from __future__ import annotations

# So many letters are shown before and after the one at which a tape breaks.
AROUND = 8


def break_words(tape: bytes, reach: int, resume: int) -> str:
    """Why `tape`, with this reach and this resume, is refused with 5."""
    if not tape:
        return "the tape stops too early: it has no letter"
    words = _front(tape, reach) + _rest(tape, resume)
    if reach < 3 and tape.startswith(b"\xef\xbb\xbf"):
        words += "; it begins with a byte order mark"
    return words


def _shown(letters: bytes) -> str:
    """Letters as words show them: one outside ASCII by its number."""
    return "".join(chr(letter) if 32 < letter < 127 else f"<{letter}>" for letter in letters)


def _front(tape: bytes, reach: int) -> str:
    """What is wrong, seen from the tape's start."""
    first, last = max(reach - AROUND, 0), reach + 1 + AROUND
    before = ("..." if first > 0 else "") + _shown(tape[first:reach])
    if reach >= len(tape):
        return f"the tape stops too early, after {before}"
    letter = _shown(tape[reach : reach + 1])
    after = _shown(tape[reach + 1 : last]) + ("..." if last < len(tape) else "")
    fault = "follow" if reach else "come first"
    return f"the letter {letter} at position {reach} cannot {fault}, in {before}[{letter}]{after}"


def _rest(tape: bytes, resume: int) -> str:
    """What can be read, seen from the tape's end."""
    if resume >= len(tape):
        return "; its last letter cannot end a tape"
    if resume == 0:
        return "; all of it can end a longer tape: are its first letters missing?"
    return f"; from position {resume} on the rest can be read"
