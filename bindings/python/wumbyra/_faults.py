"""What is wrong with a line of a pattern text, in the words of the command tapelist.

The words help a person; what is refused, and which line, the library decides. bin/tapelist has the same in awk and the Rust wrapper in
src/faults.rs: tests/tapelist/faults.tsv holds the three together.
"""

from __future__ import annotations

import re
from typing import Dict, List

TAKES = {b"E": 3, b"L": 4, b"K": 4, b"Z": 4, b"R": 5, b"S": 5, b"A": 5}
NAMING = b"S", b"A", b"K", b"Z"
ACCOUNT = re.compile(b"-|[1-9][0-9]?|1[0-9][0-9]|200")
PLACE = re.compile(b"[0-9]|[1-5][0-9]|6[0-3]")
# So many bytes of a text are looked at, which are more than decide it.
BYTES = 4096


def fault_words(text: bytes, number: int, line: int) -> str:
    """Why `text` is refused with this number, 1 or 2, and this line."""
    text = text[:BYTES]
    if number == 2:
        return f"line {line}: {_tree(text, line)}"
    if not text:
        return "the text is empty, and a pattern has 1 to 64 lines"
    return f"line {line}: {_form(text, line)}"


def _shown(field: bytes) -> str:
    """A field as words show it: at most 24 letters, and a byte that is no letter of ASCII by its number."""
    shown = ""
    for byte in field:
        if len(shown) >= 24:
            break
        shown += chr(byte) if 32 < byte < 127 else f"<{byte}>"
    return shown


def _bytes(text: bytes, line: int, content: bytes) -> str:
    """Faults that editors make."""
    if line == 0 and text.startswith(b"\xef\xbb\xbf"):
        return "it begins with a byte order mark; save the file without one"
    if line == 0 and text[:2] in (b"\xff\xfe", b"\xfe\xff"):
        return "it begins as UTF-16 does; save the file as plain text, one byte a letter"
    if not content:
        return "it is empty"
    if content.endswith(b"\r"):
        return "byte 13 stands at its end: a Windows line end?"
    if content.startswith(b"#"):
        return "it is a comment, and a pattern has none"
    if content.count(b"\t") < 2 and b" " in content:
        return "its fields are parted by spaces, and one tab (byte 9) is due"
    return ""


def _letters(kind: bytes, ends: List[bytes]) -> str:
    for field in ends:
        if len(field) != 1 or not (32 < field[0] < 127 or 160 < field[0] < 255):
            return f'"{_shown(field)}" is no letter, which is one byte from 33 to 126 or 161 to 254'
    if kind == b"R" and ends[1] < ends[0]:
        return f"the range from {_shown(ends[0])} to {_shown(ends[1])} is reversed"
    return ""


def _parts(parts: List[bytes]) -> str:
    for part in parts:
        if not PLACE.fullmatch(part):
            return f'the part "{_shown(part)}" is no place, which is 0 to 63 without leading zeros'
    return ""


def _fields(line: int, fields: List[bytes]) -> str:
    kind = fields[1] if len(fields) > 1 else b""
    if fields[0] != b"%d" % line:
        return f'it begins with "{_shown(fields[0])}", and its own place {line} is due'
    if kind not in TAKES:
        return f'the kind "{_shown(kind)}" is none of E, L, R, S, A, K and Z'
    if len(fields) > 2 and not ACCOUNT.fullmatch(fields[2]):
        return f'the account "{_shown(fields[2])}" is neither - nor 1 to 200 without leading zeros'
    if len(fields) != TAKES[kind]:
        return f"kind {kind.decode()} takes {TAKES[kind]} fields, and it has {len(fields)}"
    return _parts(fields[3:]) if kind in NAMING else _letters(kind, fields[3:])


def _form(text: bytes, line: int) -> str:
    if line == 64:
        return "it is the 65th, and a pattern has at most 64"
    lines = text.split(b"\n")
    content = lines[line] if line < len(lines) else b""
    words = _bytes(text, line, content) or _fields(line, content.split(b"\t"))
    if not words and line == len(lines) - 1:
        return "the last line is not ended: byte 10 is missing"
    return words or "it has not the form of a line"


def _naming(line: int, fields: List[bytes], named_by: Dict[int, int]) -> str:
    """The first part that a line names wrongly; the others go into `named_by`."""
    for part in map(int, fields[3:] if fields[1] in NAMING else []):
        if part >= line:
            return f"the part {part} is not below its line: a part has the smaller number"
        if part in named_by:
            return f"it names the part {part} twice" if named_by[part] == line else f"the part {part} is named by line {named_by[part]} already"
        named_by[part] = line
    return ""


def _tree(text: bytes, line: int) -> str:
    named_by: Dict[int, int] = {}
    for at, content in enumerate(text.split(b"\n")[:-1]):
        words = _naming(at, content.split(b"\t"), named_by)
        if words:
            return words if at == line else "the lines are no tree"
    if line not in named_by:
        return "no line names it, and only the last line, the root, is named by none"
    return "the lines are no tree"
