"""Compares `Pattern.subpattern` of the Python package with the reference.

    subpatterns.py ROWS

Each line of ROWS has a pattern's text, a node, and the text of the node's pattern by the reference. Texts are in hexadecimal, and tabs
part the fields. A row that differs is printed, and the exit status is 1.
"""

from __future__ import annotations

import sys
from pathlib import Path
from typing import NamedTuple, Optional

from wumbyra import Pattern


class Row(NamedTuple):
    text: bytes
    node: int
    expected: bytes


def row_of(line: str) -> Row:
    text, node, expected = line.split("\t")
    return Row(bytes.fromhex(text), int(node), bytes.fromhex(expected))


def fault(row: Row) -> Optional[str]:
    """What is wrong, if anything is."""
    try:
        pattern = Pattern(row.text)
        found = pattern.subpattern(row.node)
    except Exception as error:
        return f"raised {error!r}"
    if found.text != row.expected:
        return f"made {found.text!r}"
    lines = row.expected.count(b"\n")
    if found.lines != lines:
        return f"has {found.lines} lines for {lines}"
    outside = (node for node in (pattern.lines, pattern.lines + 1000) if not refuses(pattern, node))
    return next((f"has no IndexError for node {node}" for node in outside), None)


def refuses(pattern: Pattern, node: int) -> bool:
    try:
        pattern.subpattern(node)
    except IndexError:
        return True
    return False


def main(path: str) -> int:
    rows = [row_of(line) for line in Path(path).read_text("ascii").splitlines()]
    if not rows:
        print(f"{path} has no rows")
        return 1
    for row in rows:
        wrong = fault(row)
        if wrong is not None:
            print(f"sub-pattern of node {row.node} of {row.text!r}, expected {row.expected!r}: {wrong}")
            return 1
    print(f"{len(rows)} sub-patterns in Python: all equal")
    return 0


if __name__ == "__main__":
    if len(sys.argv) != 2:
        sys.exit(__doc__)
    sys.exit(main(sys.argv[1]))
