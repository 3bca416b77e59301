"""bad.py TABLE ROOM PROGRAM..: runs a billing program on each bad input of TABLE, in new folders below ROOM.

Each case has two flats: `good`, which must be billed as ever, and one with a fault. Prints a transcript; a difference from the table is
said on standard error, and the exit status is 1 then. Fields of the table, in which `\\t`, `\\n` and `\\xff` stand for bytes:

1. the case in words; nothing for one more file of the case above
2. the arguments, parted by spaces, with {folder} for the folder of the flats
3. the file of the flat, with the flat's folder before it
4. its bytes, in which {pattern} stands for the pattern of `good`, {version} for that of the library, and {crc} for the CRC-32 of all before
   its line; or (none), (folder), (link) for a link to nothing, (full) for a link to a full disk
5. the exit status
6. with status 0 and 1 the lines of standard output that are not those of `good`; with status 2 standard error
"""

from __future__ import annotations

import os
import re
import shutil
import subprocess
import sys
import zlib
from typing import List, NamedTuple, Tuple

from wumbyra import version

# What every flat has, but for the file of its case.
FILES = {
    b"pattern.tsv": b"0\tR\t1\t0\t9\n1\tL\t-\tD\n2\tA\t-\t0\t1\n3\tK\t-\t2\n",
    b"tape.txt": b"12D34D5\n",
    b"read.tsv": b"20240227\t20240229\t-\n",
}
GOOD = b"good\t15\t15"
FRAME = re.compile(rb"flat(\t1)?\tall|good\t15\t15|sum\t\d+\t\d+||not billed|warnings")


class Case(NamedTuple):
    words: str
    arguments: bytes
    files: List[Tuple[bytes, bytes]]
    status: int
    lines: bytes


def unescaped(field: str) -> bytes:
    return field.encode("latin-1").decode("unicode_escape").encode("latin-1")


def filled(content: bytes) -> bytes:
    content = content.replace(b"{version}", b"%d" % version()).replace(b"{pattern}", FILES[b"pattern.tsv"])
    return content.replace(b"{crc}", b"%08x" % zlib.crc32(content.partition(b"crc32\t{crc}")[0]))


def cases_of(table: str) -> List[Case]:
    cases: List[Case] = []
    with open(table, encoding="ascii") as rows:
        for row in rows:
            words, arguments, file, content, status, lines = row.rstrip("\n").split("\t")
            if words:
                cases.append(Case(words, unescaped(arguments), [], int(status), filled(unescaped(lines))))
            cases[-1].files.append((unescaped(file), filled(unescaped(content))))
    return cases


def put_flat(folder: bytes) -> None:
    os.makedirs(folder, exist_ok=True)
    for name, content in FILES.items():
        with open(os.path.join(folder, name), "wb") as sink:
            sink.write(content)


def put_file(path: bytes, content: bytes) -> None:
    if os.path.lexists(path):
        os.remove(path)
    if content == b"(folder)":
        os.mkdir(path)
    elif content == b"(link)":
        os.symlink(b"nowhere", path)
    elif content == b"(full)":
        os.symlink(b"/dev/full", path)
    elif content != b"(none)":
        with open(path, "wb") as sink:
            sink.write(content)


def run(case: Case, folder: bytes, program: List[str]) -> subprocess.CompletedProcess[bytes]:
    """All flats are made anew."""
    shutil.rmtree(folder, ignore_errors=True)
    put_flat(os.path.join(folder, b"good"))
    for flat in {os.path.dirname(file) for file, _ in case.files if b"/" in file}:
        put_flat(os.path.join(folder, flat))
    for file, content in case.files:
        put_file(os.path.join(folder, file), content)
    arguments = [argument.replace(b"{folder}", folder) for argument in case.arguments.split(b" ") if argument]
    return subprocess.run([os.fsencode(word) for word in program] + arguments, capture_output=True)


def is_expected(case: Case, folder: bytes, done: subprocess.CompletedProcess[bytes]) -> bool:
    if case.status == 2:
        return done.returncode == 2 and done.stdout == b"" and done.stderr == case.lines.replace(b"{folder}", folder) + b"\n"
    lines = done.stdout.split(b"\n")
    others = [line for line in lines if not FRAME.fullmatch(line)]
    expected = case.lines.split(b"\n") if case.lines else []
    return done.returncode == case.status and done.stderr == b"" and GOOD in lines and others == expected


def main(table: str, room: str, *program: str) -> int:
    failed = 0
    folder = os.path.join(os.fsencode(room), b"not-UTF-8-\xff")
    for case in cases_of(table):
        done = run(case, folder, list(program))
        said = b"%s (exit status %d)\n%s%s\n" % (case.words.encode(), done.returncode, done.stdout, done.stderr)
        os.write(1, said)
        if not is_expected(case, folder, done):
            os.write(2, b"differs: " + said)
            failed = 1
    return failed


if __name__ == "__main__":
    sys.exit(main(*sys.argv[1:]))
