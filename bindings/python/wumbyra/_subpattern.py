"""The text of the pattern made of a node and all below it."""

from __future__ import annotations

# These kinds name other lines. What the other kinds need are letters, and a letter may look like a place.
NAMING = b"S", b"A", b"K", b"Z"


def subpattern_text(text: bytes, node: int) -> bytes:
    """The lines of that node and all below it, in the same order, with places counted afresh. Give a text that loads and has the node."""
    lines = [line.split(b"\t") for line in text.split(b"\n")[: node + 1]]
    # A part is below the line that names it, so going down from the node every line comes after the one that names it.
    kept = {node}
    for place in range(node, -1, -1):
        _, kind, _, *needs = lines[place]
        if place in kept and kind in NAMING:
            kept.update(map(int, needs))
    fresh = {place: number for number, place in enumerate(sorted(kept))}
    made = b""
    for place, number in fresh.items():
        _, kind, account, *needs = lines[place]
        if kind in NAMING:
            needs = [b"%d" % fresh[int(part)] for part in needs]
        made += b"\t".join([b"%d" % number, kind, account, *needs]) + b"\n"
    return made
