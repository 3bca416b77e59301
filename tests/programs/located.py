"""The program tapelist with an argument: after the listing one line more, where a tape breaks.

The tapes are those of tests/tapelist/breaks.tsv, which has both positions, written by hand. What the rest of the way from the files
to standard output does is tried without an argument, by the cases of tapelist.py.
"""

import subprocess
import tempfile
from pathlib import Path

import patterns

SECONDS = 10
LONGEST = 3600 * b"7"


def rows(root):
    """Each tape of the table: its name, pattern, tape and the line that must be printed."""
    for row in (root / "tests/tapelist/breaks.tsv").read_text(encoding="ascii").splitlines():
        name, reach, resume, _, text, tape = row.split("\t")
        text, tape = (field.encode().decode("unicode_escape").encode("latin-1") for field in (text, tape))
        yield name, text, tape, located(reach, resume)


def located(reach, resume):
    return b"located\t%d\t%d\n" % (int(reach), int(resume))


def cases(root):
    for name, text, tape, says in rows(root):
        yield name, text, tape + b"\n", says
        yield f"{name}, without its last newline", text, tape, says
    yield "a tape that can be read", patterns.WORKED, b"3W2\n", located(3, 0)
    yield "the longest tape", patterns.WORKED, LONGEST + b"\n", located(3600, 0)
    yield "a letter too many", patterns.WORKED, LONGEST + b"7\n", b"refused\t3\t0\n"
    yield "5 MB", patterns.WORKED, 1400 * LONGEST, b"refused\t3\t0\n"
    yield "two closing newlines", patterns.WORKED, b"3W\n\n", b"refused\t4\t2\n"
    yield "a pattern that does not load", b"0\tL\t-\ta", b"a\n", b"refused\t2\t0\n"
    yield "no pattern", b"", b"a\n", b"refused\t2\t0\n"
    yield "a missing tape", patterns.WORKED, None, b""
    yield "a missing pattern", None, b"3W2\n", b""


def faults(program, root):
    """Each case with None, or with what is wrong."""
    for name, text, tape, says in cases(root):
        for word in ["located", ""]:
            yield f"{name}, argument '{word}'", fault(program, text, tape, says, word)


def run(command, folder):
    return subprocess.run(command, cwd=folder, stdin=subprocess.DEVNULL, capture_output=True, timeout=SECONDS)


def fault(program, text, tape, says, word):
    with tempfile.TemporaryDirectory(prefix="programs-") as folder:
        for file, content in [("pattern.tsv", text), ("tape.txt", tape)]:
            if content is not None:
                Path(folder, file).write_bytes(content)
        plain = run([program], folder)
        ran = run([program, word], folder)
    if ran.stdout != plain.stdout + says:
        return f"prints {ran.stdout[len(plain.stdout):][:60]!r} after the listing, in place of {says!r}"
    missing = [file.encode() for file, content in [("pattern.tsv", text), ("tape.txt", tape)] if content is None]
    if bool(ran.stderr) != bool(missing) or not all(file in ran.stderr for file in missing):
        return f"prints {ran.stderr[:60]!r} to standard error"
    return None if ran.returncode == 0 else f"ends with status {ran.returncode}"
