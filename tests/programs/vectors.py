"""The cases of program vectors: its stored input, handed over in other ways, and lines that are no cases.

The stored output is what the independent reader answers (`tests/vectors/regenerate --check`), so each stored case has
its answer there, one after the other.
"""

import os
import subprocess
import threading

from running import SECONDS, difference, shown
from sources import hand_out

# Longer than the longest line that the program holds.
OVERLONG = 20_481
MEGABYTES_5 = 5_000_000
NO_CASE = b"not a case\n"
# The fields of a case of kind `a`: its account, and the kind of what is done with the table.
ACCOUNT, SERVICE = 3, 4


def answers_of(cases, output):
    """The answer of each case, as the lines of the output that are its own."""
    lines = iter(output.splitlines(keepends=True))
    answers = []
    for case in cases:
        first = next(lines)
        answers.append(first + b"".join(next(lines) for _ in range(lines_behind(case, first))))
    return answers


def lines_behind(case, first):
    """How many lines an answer has behind its first: a loaded table's nodes, what a code's three services say, a desk's calls, a term's litres."""
    kind = case[:1]
    if kind == b"a":
        kind = case.split(b" ")[SERVICE]
    if kind == b"d":
        return calls_of(case) - 1
    if kind == b"l":
        number, value = first.split(b"\t")[:2]
        return int(value) if number == b"0" else 0
    return {b"c": 2, b"f": 1}.get(kind, 0)


# The fields behind each letter in a run of a desk; the last two are no calls and answer nothing.
RUN_FIELDS = {b"o": 1, b"p": 3, b"w": 1, b"h": 4, b"t": 1}


def calls_of(case):
    """How many calls a run of a desk has."""
    fields = case.rstrip(b"\n").split(b" ")[2:]
    calls = 0
    while fields:
        calls += fields[0] in (b"o", b"p", b"w")
        fields = fields[1 + RUN_FIELDS[fields[0]] :]
    return calls


def faults(program, stored):
    """Each case's name, and None where the program does what it must, else what is wrong."""
    whole, output = (stored / "stdin").read_bytes(), (stored / "stdout").read_bytes()
    cases = whole.splitlines(keepends=True)
    answers = answers_of(cases, output)
    # A sample with cases of all kinds, and the longest line.
    chosen = sorted({*range(0, len(cases), 60), len(cases) - 1, max(range(len(cases)), key=lambda i: len(cases[i]))})
    some, said = b"".join(cases[i] for i in chosen), b"".join(answers[i] for i in chosen)
    last = len(answers[chosen[-1]])
    good, right = cases[0], answers[0]
    told = [
        ("all stored cases", whole, output, None),
        ("all stored cases in pieces of 997 bytes", whole, output, 997),
        ("stored cases, a byte at a time", some, said, 1),
        ("the last line without its newline", some[:-1], said[:-last], None),
        ("no input", b"", b"", None),
        ("a newline alone", b"\n", NO_CASE, None),
        ("an empty line between cases", good + b"\n" + good, right + NO_CASE + right, None),
        ("a line too long, then a case", b"l " + b"0" * (OVERLONG - 2) + b"\n" + good, NO_CASE + right, None),
        ("a case with too many blanks behind it", good[:-1].ljust(OVERLONG) + b"\n" + good, NO_CASE + right, None),
        ("a line of 5 MB, then a case", b"l" * MEGABYTES_5 + b"\n" + good, NO_CASE + right, None),
        ("a kind that is none", b"x" + good[1:] + good, NO_CASE + right, None),
        ("half a byte", good[:-2] + b"\n" + good, NO_CASE + right, None),
        ("a digit that is none", good[:-2] + b"g\n" + good, NO_CASE + right, None),
        ("a digit with the highest bit set", good[:-2] + b"\xb1\n" + good, NO_CASE + right, None),
        *((name, altered + good, NO_CASE + right, None) for name, altered in [*no_tables(cases), *no_tapes(cases)]),
    ]
    return [(name, fault(program, given, expected, size)) for name, given, expected, size in told]


def no_tables(cases):
    """Lines of kind `a` that are no cases: an account that a table has no room for, and no service that the kind has."""
    fields = next(case for case in cases if case[:1] == b"a").split(b" ")
    told = [(f"the account {account} in a table", ACCOUNT, b"%d" % account) for account in (256, 456, 4_294_967_296)]
    told += [(f"kind {kind.decode()} in kind a", SERVICE, kind) for kind in (b"a", b"l", b"x")]
    lines = [(name, b" ".join(fields[:at] + [other] + fields[at + 1 :])) for name, at, other in told]
    return [*lines, ("an account and no kind", b" ".join(fields[:SERVICE]) + b"\n")]


def no_tapes(cases):
    """Lines of kind `b` that are no cases: its tape, which stands last, has half a byte or a digit that is none."""
    line = next(case for case in cases if case[:1] == b"b" and not case.endswith(b" \n"))
    return [("half a byte of a tape", line[:-2] + b"\n"), ("a digit of a tape that is none", line[:-2] + b"g\n")]


def fault(program, given, expected, size):
    try:
        ran = run_at_once(program, given) if size is None else run_in_pieces(program, given, size)
    except subprocess.TimeoutExpired:
        return f"still running after {SECONDS} seconds"
    printed, said, status = ran
    if printed != expected:
        return difference(expected, printed)
    if said:
        return f"prints {shown(said)} to standard error"
    return None if status == 0 else f"ends with status {status}"


def run_at_once(program, given):
    ran = subprocess.run([program], input=given, capture_output=True, timeout=SECONDS)
    return ran.stdout, ran.stderr, ran.returncode


def run_in_pieces(program, given, size):
    """Hands over each piece when the one before it has been read."""
    reader, writer = os.pipe()
    running = subprocess.Popen([program], stdin=reader, stdout=subprocess.PIPE, stderr=subprocess.PIPE)
    os.close(reader)
    stop = threading.Event()
    feeder = threading.Thread(target=feed, args=(writer, given, size, stop))
    feeder.start()
    try:
        printed, said = running.communicate(timeout=2 * SECONDS)
    except subprocess.TimeoutExpired:
        running.kill()
        running.communicate()
        raise
    finally:
        stop.set()
        feeder.join()
    return printed, said, running.returncode


def feed(writer, given, size, stop):
    try:
        hand_out(writer, given, size, stop)
    except BrokenPipeError:
        pass
    finally:
        os.close(writer)
