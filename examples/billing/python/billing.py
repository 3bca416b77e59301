"""billing [--store] FOLDER: the litres of all flats under FOLDER, as one table on standard output. It has a column for each account that
some bill has litres on. billing --flip FILE: what one changed bit does to a stored code.

Each flat is a folder with pattern.tsv and tape.txt, or with stored.tsv, which --store writes. read.tsv has the dates of the reading, and
term.tsv those of a bill for some days only. ../README.md has their forms. A flat with a fault gets no litres at all: it stands under the
table with the cause, and all others are billed. The exit status is 0 if all flats are billed, 1 if some are not, and 2 for trouble: a
folder that cannot be read, or output that cannot be written.
"""

from __future__ import annotations

import os
import sys
from typing import Dict, List, NamedTuple

from flat import Bill, Flat, Unbilled
from flips import flips
from output import complain, print_all
from stored import Damaged, stored_of
from wumbyra import ACCOUNTS, Refused

USAGE = b"usage: billing [--store] FOLDER | billing --flip FILE"


class Bills(NamedTuple):
    """Bills by name, and why the other flats have none: number and value of a refusal, and the cause in words."""

    billed: Dict[bytes, Bill]
    unbilled: Dict[bytes, bytes]


def is_control(byte: int) -> bool:
    return byte < 32 or byte == 127


def shown(name: bytes) -> bytes:
    """A name with a tab or a line end would make other columns and rows."""
    return bytes(ord("?") if is_control(byte) else byte for byte in name)


def bill_flat(folder: bytes, name: bytes, store: bool) -> Bill:
    if name in (b"flat", b"sum") or any(map(is_control, name)):
        raise Unbilled("its name cannot stand in the table")
    return Flat(os.path.join(folder, name)).bill(store)


def bill_all(folder: bytes, names: List[bytes], store: bool) -> Bills:
    bills = Bills({}, {})
    for name in names:
        try:
            bills.billed[name] = bill_flat(folder, name, store)
        except Refused as why:
            bills.unbilled[name] = b"%d\t%d\t%s" % (why.number, why.value, why.cause.encode())
        except Unbilled as why:
            bills.unbilled[name] = b"-\t-\t%s" % str(why).encode()
    return bills


def row(*fields: object) -> bytes:
    return b"\t".join(field if isinstance(field, bytes) else str(field).encode() for field in fields) + b"\n"


def table(bills: Bills) -> bytes:
    sums = [sum(bill.litres[account] for bill in bills.billed.values()) for account in range(ACCOUNTS)]
    columns = [account for account in range(ACCOUNTS) if sums[account] > 0]
    rows = [row("flat", *columns, "all")]
    for name, litres in [*((name, bill.litres) for name, bill in bills.billed.items()), (b"sum", sums)]:
        rows.append(row(name, *(litres[account] for account in columns), sum(litres)))
    rows.append(b"\nnot billed\n")
    rows += (row(shown(name), why) for name, why in bills.unbilled.items())
    rows.append(b"\nwarnings\n")
    rows += (row(name, words) for name, bill in bills.billed.items() for words in bill.warnings)
    return b"".join(rows)


def bill_folder(folder: bytes, store: bool) -> int:
    try:
        names = sorted(name for name in os.listdir(folder) if not name.startswith(b"."))
    except OSError:
        return complain(b"billing: %s cannot be read" % folder)
    try:
        bills = bill_all(folder, names, store)
    except OSError:
        return complain(b"billing: a code cannot be stored")
    return print_all(b"billing", table(bills), 1 if bills.unbilled else 0)


def flip_file(path: bytes) -> int:
    try:
        with open(path, "rb") as source:
            counts = flips(stored_of(source.read()))
    except OSError:
        return complain(b"billing: %s cannot be read" % path)
    except (Damaged, ValueError, Refused):
        return complain(b"billing: %s is not a stored code" % path)
    return print_all(b"billing", counts, 0)


def main(arguments: List[bytes]) -> int:
    if len(arguments) == 1:
        return bill_folder(arguments[0], False)
    if len(arguments) == 2 and arguments[0] == b"--store":
        return bill_folder(arguments[1], True)
    if len(arguments) == 2 and arguments[0] == b"--flip":
        return flip_file(arguments[1])
    return complain(USAGE)


if __name__ == "__main__":
    sys.exit(main([os.fsencode(argument) for argument in sys.argv[1:]]))
