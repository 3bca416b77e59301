"""How a case of tapelist is run, and what is wrong with what it printed."""

import os
import resource
import shutil
import subprocess
import tempfile
import threading
from pathlib import Path

from sources import Unreadable

SECONDS = 10
NOBODY = 65534
NAMES = ("pattern.tsv", "tape.txt")


class Unable(Exception):
    """A case that cannot be run here, and why."""


def run_case(program, reference, case):
    """None where the program does what it must, else what is wrong. Raises `Unable`."""
    with tempfile.TemporaryDirectory(prefix="programs-") as made:
        folder = Path(made, "case")
        folder.mkdir()
        folder.chmod(0o755)
        Path(made).chmod(0o755)
        contents = [case.pattern.content, case.tape.content]
        feeders = [source.put(folder / name) for name, source in zip(NAMES, (case.pattern, case.tape))]
        reader = None
        if Unreadable in (type(case.pattern), type(case.tape)):
            program, reader = unprivileged(program, Path(made))
        ran = run_program(program, folder, [feed for feed in feeders if feed], reader, case.room)
        if isinstance(ran, str):
            return ran
        if case.room is not None or None in contents:
            return fault_unlisted(ran, case, contents)
        expected = listing_by(reference, contents, Path(made, "expected"))
        if case.says is not None and expected != case.says.encode("ascii"):
            return f"the independent reader prints {shown(expected)} in place of {shown(case.says.encode('ascii'))}"
        return fault_listed(ran, expected)


def unprivileged(program, made):
    """The program and the user to run it as, so that a file without permissions cannot be read."""
    if os.geteuid() != 0:
        return program, None
    copied = Path(made, "program")
    shutil.copyfile(program, copied)
    copied.chmod(0o555)
    return copied, NOBODY


def run_program(program, folder, feeders, reader, room):
    """What the program printed and how it ended; a text where it did not end."""
    stop = threading.Event()
    threads = [threading.Thread(target=feed, args=(stop,)) for feed in feeders]
    for thread in threads:
        thread.start()
    words = {"cwd": folder, "stdin": subprocess.DEVNULL, "stdout": subprocess.PIPE, "stderr": subprocess.PIPE}
    if reader is not None:
        words = {**words, "user": reader, "group": reader, "extra_groups": []}
    try:
        if room is not None:
            return run_with_room(program, words, room)
        return subprocess.run([program], timeout=SECONDS, **words)
    except subprocess.TimeoutExpired:
        return f"still running after {SECONDS} seconds"
    except PermissionError as error:
        if reader is None:
            raise
        raise Unable(f"cannot be run as a user without privileges: {error}") from error
    finally:
        stop.set()
        for thread in threads:
            thread.join()


def run_with_room(program, words, room):
    """Standard output takes so many bytes: a write that goes over them gets a short count, the next one an error."""
    if room == 0:
        with open("/dev/full", "wb") as out:
            return subprocess.run([program], timeout=SECONDS, **{**words, "stdout": out})
    limit = lambda: resource.setrlimit(resource.RLIMIT_FSIZE, (room, room))
    with tempfile.TemporaryFile() as out:
        # Python ignores the signal that tells of the limit, and the program inherits that: it sees the error alone.
        words = {**words, "stdout": out, "preexec_fn": limit, "restore_signals": False}
        return subprocess.run([program], timeout=SECONDS, **words)


def listing_by(reference, contents, folder):
    """What the independent reader prints for these bytes."""
    folder.mkdir()
    for name, content in zip(NAMES, contents):
        Path(folder, name).write_bytes(content)
    return subprocess.run([reference, "listing", folder], check=True, stdout=subprocess.PIPE).stdout


def fault_listed(ran, expected):
    if ran.stdout != expected:
        return difference(expected, ran.stdout)
    if ran.stderr:
        return f"prints {shown(ran.stderr)} to standard error"
    return None if ran.returncode == 0 else f"ends with status {ran.returncode}"


def fault_unlisted(ran, case, contents):
    """Nothing on standard output, and on standard error what could not be read or written."""
    if ran.stdout:
        return f"prints {shown(ran.stdout)}, where a file cannot be read"
    unread = [name for name, content in zip(NAMES, contents) if content is None]
    failed = unread if case.room is None else ["standard output"]
    if not any(name.encode("ascii") in ran.stderr for name in failed):
        return f"prints {shown(ran.stderr)} to standard error, which does not name {' or '.join(failed)}"
    return None if ran.returncode >= 0 else f"is ended by signal {-ran.returncode}"


def difference(expected, printed):
    """The first line that differs."""
    wanted, got = expected.splitlines(keepends=True), printed.splitlines(keepends=True)
    at = next((i for i, (a, b) in enumerate(zip(wanted, got)) if a != b), min(len(wanted), len(got)))
    line = lambda lines: shown(lines[at]) if at < len(lines) else "no line"
    return f"line {at + 1}: {line(wanted)} is expected, {line(got)} is printed"


def shown(content):
    return repr(content if len(content) <= 60 else content[:60] + b"..")[1:]
