"""The cases of program tapelist.

What must be printed is what the independent reader prints for the same bytes. Where a case is short, its output is
written here too: `says` is the whole standard output, and the independent reader must agree with it. Where a file
cannot be read, or standard output does not take all, standard error must name what failed.
"""

from __future__ import annotations

from dataclasses import dataclass

import patterns
from sources import Folder, Link, Missing, Pipe, Plain, Unreadable

MEGABYTES_5 = 5_000_000


@dataclass
class Case:
    name: str
    pattern: object
    tape: object
    says: str | None = None
    room: int | None = None  # how many bytes standard output takes, where it does not take all


def plain(name, pattern, tape, says=None):
    return Case(name, Plain(pattern), Plain(tape), says)


def worked(name, tape, says=None):
    return plain(name, patterns.WORKED, tape, says)


def text(name, pattern, says=None):
    return plain(name, pattern, b"3W2\n", says)


def refused(number, value):
    return f"refused\t{number}\t{value}\n"


LISTED = "tape\t3\t21\t4cc328\naccount\t1\t3\naccount\t9\t2\nopen\t0\t4\nopen\t1\t4\nopen\t2\t4\nopen\t3\t1\n"
NO_LETTERS = "tape\t0\t1\t80\nopen\t0\t1\n"


def closing_bytes():
    return [
        worked("one closing newline", b"3W2\n", LISTED),
        worked("no closing newline", b"3W2", LISTED),
        worked("two closing newlines", b"3W2\n\n", refused(4, 3)),
        worked("three closing newlines", b"3W2\n\n\n", refused(4, 3)),
        worked("a newline in front", b"\n3W2\n", refused(4, 0)),
        worked("a newline inside", b"3\nW2\n", refused(4, 1)),
        worked("an empty tape file", b"", NO_LETTERS),
        worked("a newline alone", b"\n", NO_LETTERS),
        worked("two newlines alone", b"\n\n", refused(4, 0)),
        worked("a closing CR and newline", b"3W2\r\n", refused(4, 3)),
        worked("a closing CR", b"3W2\r", refused(4, 3)),
        worked("a closing space", b"3W2 \n", refused(4, 3)),
        worked("a closing byte 0", b"3W2\0", refused(4, 3)),
    ]


def bytes_of_tapes():
    return [
        worked("a CR inside", b"3\rW2\n", refused(4, 1)),
        worked("a byte order mark before the tape", b"\xef\xbb\xbf3W2\n", refused(5, 0)),
        worked("a byte 0 inside", b"3\0W2\n", refused(4, 1)),
        worked("a byte 0 alone", b"\0", refused(4, 0)),
        worked("a byte 255", b"3W2\xff", refused(4, 3)),
        plain("bytes 33 and 126", patterns.ANY, b"!~\n"),
        plain("byte 32", patterns.ANY, b"! ~\n", refused(4, 1)),
        plain("byte 127", patterns.ANY, b"!\x7f~\n", refused(4, 1)),
        worked("no parse spells the tape", b"3WW\n", refused(5, 0)),
        plain("a letter where the pattern has none", patterns.NOTHING, b"a", refused(5, 0)),
    ]


def hot_letters():
    every = lambda name, tape, says=None: plain(name, patterns.EVERY, tape, says)
    inside = lambda byte: every(f"byte {byte} inside the range", bytes([33, byte, 254, 10]), refused(4, 1))
    umlaut = "ä".encode()  # two bytes, 195 and 164
    two = lambda code, litres="": f"tape\t2\t19\t{code}\n{litres}open\t0\t2\nopen\t1\t2\nopen\t2\t1\n"
    hot = "tape\t3\t21\t0cd358\naccount\t1\t3\naccount\t2\t5\nopen\t0\t4\nopen\t1\t4\nopen\t2\t4\nopen\t3\t1\n"
    return [
        every("bytes 161 and 254", b"\xa1\xfe\n", two("50bfa0")),
        *(inside(byte) for byte in (127, 128, 159, 160)),
        every("byte 255 above the range", b"\xa1\xff\xfe\n", refused(4, 1)),
        every("a closing byte 138", b"\xa1\x8a", refused(4, 1)),
        every("byte 160 before byte 127", b"~\xa0\x7f\n", refused(4, 1)),
        every("a UTF-8 letter on the tape", umlaut + b"\n", two("61a920")),
        every("a byte order mark that a pattern takes", b"\xef\xbb\xbf3W2\n"),
        every("a digit with the highest bit set is no litre", b"5\xb5\n", two("1aad60", "account\t7\t5\n")),
        every("all letters", bytes([*range(33, 127), *range(161, 255), 10])),
        every("3,600 hot letters", b"\xfe" * 3600 + b"\n"),
        every("3,601 hot letters", b"\xfe" * 3601 + b"\n", refused(3, 0)),
        every("3,600 letters, the last byte 160", b"\xa1" * 3599 + b"\xa0\n", refused(4, 3599)),
        plain("a combined meter", patterns.COMBINED, b"3\xc85\n", hot),
        plain("the two letters beside the gap", patterns.TWO, b"~\xa1\n", two("3f2860")),
        plain("a letter above those beside the gap", patterns.TWO, b"~\xa2\n", refused(5, 0)),
        plain("hot letters alone", patterns.HOT, b"\xa1\xfe" * 30 + b"\n"),
        plain("a letter of the other side", patterns.HOT, b"!\n", refused(5, 0)),
        plain("a hot letter that no line takes", patterns.ANY, b"\xa1\n", refused(5, 0)),
        Case("hot letters by pipes, a byte at a time", Pipe(patterns.COMBINED), Pipe(b"3\xc85\n"), hot),
    ]


def hot_texts():
    line = lambda name, row, says: text(name, patterns.text(row), says)
    umlaut = "ä".encode().decode("latin-1")  # its two bytes, as patterns.text takes them
    named = patterns.WORKED
    return [
        line("a letter field of byte 161", "L - \xa1", refused(5, 0)),
        line("a letter field of byte 254", "L - \xfe", refused(5, 0)),
        *(line(f"a letter field of byte {byte}", f"L - {chr(byte)}", refused(1, 0)) for byte in (127, 128, 160, 255)),
        line("a UTF-8 letter in a letter field", f"L - {umlaut}", refused(1, 0)),
        line("a UTF-8 letter for an end of a range", f"R - ! {umlaut}", refused(1, 0)),
        line("a range from byte 126 to byte 161", "R - ~ \xa1", refused(5, 0)),
        line("a range that ends in the gap", "R - ! \x80", refused(1, 0)),
        line("a range that begins in the gap", "R - \xa0 \xa1", refused(1, 0)),
        line("a range inside the gap", "R - \x80 \x90", refused(1, 0)),
        line("a range up to byte 255", "R - \xa1 \xff", refused(1, 0)),
        line("a range across the gap the wrong way", "R - \xa1 ~", refused(1, 0)),
        line("a kind with the highest bit set", "\xc5 -", refused(1, 0)),
        line("an account with the highest bit set", "E \xb1", refused(1, 0)),
        text("a place with the highest bit set", b"\xb0" + patterns.NOTHING[1:], refused(1, 0)),
        text("tabs with the highest bit set", named.replace(b"\t", b"\x89"), refused(1, 0)),
        text("a line end with the highest bit set", named[:-1] + b"\x8a", refused(1, 5)),
    ]


def lengths_of_tapes():
    nines = b"9" * 3599
    return [
        plain("33 letters", patterns.ANY, b"1" * 33 + b"\n"),
        plain("3,600 letters and a newline", patterns.ANY, nines + b"9\n"),
        plain("3,600 letters and no newline", patterns.ANY, nines + b"9"),
        plain("3,600 letters and two newlines", patterns.ANY, nines + b"9\n\n", refused(3, 0)),
        plain("3,601 letters and a newline", patterns.ANY, nines + b"99\n", refused(3, 0)),
        plain("3,601 letters and no newline", patterns.ANY, nines + b"99", refused(3, 0)),
        plain("3,600 letters, the last a space", patterns.ANY, nines + b" \n", refused(4, 3599)),
        plain("3,601 letters, the first a space", patterns.ANY, b" " + nines + b"9\n", refused(3, 0)),
        plain("3,600 letters that no parse spells", patterns.WORKED, nines + b"W\n", refused(5, 0)),
        plain("4,096 bytes of a tape, the last a newline", patterns.ANY, b"9" * 4095 + b"\n", refused(3, 0)),
        plain("4,097 bytes of a tape", patterns.ANY, b"9" * 4096 + b"\n", refused(3, 0)),
        plain("5 MB of letters", patterns.ANY, b"9" * MEGABYTES_5, refused(3, 0)),
        plain("5 MB of newlines", patterns.ANY, b"\n" * MEGABYTES_5, refused(3, 0)),
        plain("a listing of more than 64 KB", patterns.ALTERNATIVES, b"_" * 3600 + b"\n"),
    ]


def litres_and_codes():
    between = "tape\t4\t27\t1a8de640\naccount\t3\t2\naccount\t9\t12\nopen\t0\t3\nopen\t1\t3\nopen\t2\t4\nopen\t3\t1\nopen\t4\t0\n"
    beside = "tape\t2\t19\t1a8ca0\naccount\t3\t7\nopen\t0\t4\nopen\t1\t4\nopen\t2\t1\n"
    return [
        plain("litres without an account", patterns.UNBILLED, b"12x\n"),
        plain("an account without litres", patterns.ANY, b"0x0\n"),
        plain("each account of one digit", patterns.EACH_ACCOUNT, b"0123456789987654321\n"),
        plain("account 0 beside others", patterns.INNERMOST, b"1x23\n"),
        plain("an account under account 9", patterns.STALE, b"3W2\n", LISTED),
        plain("account 9 between two others", patterns.STALE_BETWEEN, b"57x2\n", between),
        plain("account 9 beside a digit", patterns.STALE_BESIDE, b"52\n", beside),
        plain("a code of 0 bits", patterns.NOTHING, b"", "tape\t0\t0\t\nopen\t0\t1\n"),
        plain("63 stars, one in the other", patterns.STARS, b"7" * 100 + b"\n"),
        plain("two rounds of 64 longest lines", patterns.LONGEST, b"5" * 64 + b"\n"),
        plain("112 rounds of 64 longest lines", patterns.LONGEST, b"5" * 3584 + b"\n"),
    ]


def great_accounts():
    rising = (
        "tape\t5\t0\t\naccount\t0\t5\naccount\t9\t4\naccount\t20\t3\naccount\t100\t2\naccount\t200\t1\n"
        "open\t0\t5\nopen\t1\t1\nopen\t2\t1\nopen\t3\t1\nopen\t4\t1\nopen\t5\t0\n"
    )
    nines = (
        "tape\t5\t30\t18c6519c\naccount\t3\t1\naccount\t9\t3\naccount\t90\t2\n"
        "open\t0\t5\nopen\t1\t5\nopen\t2\t3\nopen\t3\t3\nopen\t4\t2\nopen\t5\t1\n"
    )
    field = lambda account: text(f"account {account!r}", patterns.text("E -", f"K {account} 0"), refused(5, 0))
    none = lambda account: text(f"account {account!r}", f"0\tE\t-\n1\tK\t{account}\t0\n".encode(), refused(1, 1))
    return [
        plain("accounts of one, two and three digits", patterns.GREAT_ACCOUNTS, b"12345\n", rising),
        plain("accounts that are written with a 9", patterns.NINES, b"1x2y3\n", nines),
        plain("32 accounts", patterns.MANY_ACCOUNTS, b"1" * 32 + b"\n"),
        *(field(account) for account in ("10", "99", "100", "109", "199", "200")),
        *(none(account) for account in ("0", "00", "01", "010", "201", "256", "265", "1000", "", "--", "-1", "+9", " 9", "9 ")),
        text("an account of 5 MB", b"0\tE\t" + b"1" * MEGABYTES_5 + b"\n", refused(1, 0)),
        text("an account of 5 MB of zeros", b"0\tE\t-\n1\tK\t" + b"0" * MEGABYTES_5 + b"\t0\n", refused(1, 1)),
        Case("accounts by a pipe, a byte at a time", Pipe(patterns.GREAT_ACCOUNTS), Pipe(b"12345\n"), rising),
    ]


def lazy_stars():
    listed = LISTED.replace("4cc328", "cce320")
    return [
        plain("the worked example with a lazy star", patterns.LAZY_WORKED, b"3W2\n", listed),
        plain("a lazy star that takes nothing", patterns.LAZY_WORKED, b"", NO_LETTERS.replace("80", "00")),
        plain("a lazy star in a star", patterns.LAZY_IN_STAR, b"a\n", "tape\t1\t4\t50\nopen\t0\t3\nopen\t1\t2\n"),
        plain("a lazy star that goes on", patterns.ONE_OR_TWO, b"aa\n"),
        plain("63 lazy stars, one in the other", patterns.LAZY_STARS, b"7" * 1000 + b"\n"),
        plain("63 stars of both kinds", patterns.BOTH_STARS, b"7" * 100 + b"\n"),
        text("a small z", patterns.text("E -", "z - 0"), refused(1, 1)),
        text("a lazy star without a part", patterns.text("E -", "Z -"), refused(1, 1)),
        text("a lazy star with two parts", patterns.text("E -", "E -", "Z - 0 1"), refused(1, 2)),
        text("a lazy star that names itself", patterns.text("E -", "Z - 1"), refused(2, 1)),
    ]


def forms_of_texts():
    named = patterns.WORKED
    return [
        text("an empty pattern file", b"", refused(1, 0)),
        text("a pattern of one newline", b"\n", refused(1, 0)),
        text("a pattern without its last newline", named[:-1], refused(1, 5)),
        text("a pattern with two closing newlines", named + b"\n", refused(1, 6)),
        text("a pattern with CR before newlines", named.replace(b"\n", b"\r\n"), refused(1, 0)),
        text("a pattern with a CR in its last line", named[:-1] + b"\r\n", refused(1, 5)),
        text("a byte order mark before the pattern", b"\xef\xbb\xbf" + named, refused(1, 0)),
        text("a byte 0 in the pattern", named.replace(b"W", b"\0"), refused(1, 1)),
        text("a byte 0 behind the pattern", named + b"\0", refused(1, 6)),
        text("spaces for tabs", named.replace(b"\t", b" "), refused(1, 0)),
        text("a closing tab", named.replace(b"W\n", b"W\t\n"), refused(1, 1)),
        text("a place with a leading zero", named.replace(b"5\tK", b"05\tK"), refused(1, 5)),
        text("a range the wrong way", named.replace(b"1\t0\t9", b"1\t9\t0"), refused(1, 3)),
        text("a line of 5 MB", named[:-2] + b"4" * MEGABYTES_5 + b"\n", refused(1, 5)),
        text("5 MB without a newline", b"0" * MEGABYTES_5, refused(1, 0)),
        text("5 MB of newlines for a pattern", b"\n" * MEGABYTES_5, refused(1, 0)),
        plain("a form fault and a tape at fault", b"0\tX\t-\n", b" ", refused(1, 0)),
    ]


def trees_of_texts():
    return [
        text("64 lines", patterns.STARS, refused(5, 0)),
        text("65 lines", patterns.LINES_65, refused(1, 64)),
        text("64 lines and one byte", patterns.STARS + b"6", refused(1, 64)),
        text("64 lines and a newline", patterns.STARS + b"\n", refused(1, 64)),
        text("64 lines and 5 MB", patterns.STARS + b"x" * MEGABYTES_5, refused(1, 64)),
        text("64 longest lines that are no tree", patterns.LONGEST_FORM, refused(2, 0)),
        text("64 longest lines that are no tree, and one byte", patterns.LONGEST_FORM + b"6", refused(1, 64)),
        text("a part named twice", patterns.text("L - a", "S - 0 0"), refused(2, 1)),
        text("a part named by two lines", patterns.text("E -", "K - 0", "K - 0", "S - 1 2"), refused(2, 2)),
        text("a part that no line names", patterns.text("E -", "E -", "K - 1"), refused(2, 0)),
        text("a line that names itself", patterns.text("E -", "S - 0 1"), refused(2, 1)),
        text("a tree fault before a form fault", patterns.text("K - 0", "X -"), refused(1, 1)),
        plain("a tree fault and a tape at fault", patterns.text("K - 0"), b" ", refused(2, 0)),
    ]


def files_not_read():
    good, tape = Plain(patterns.WORKED), Plain(b"3W2\n")
    return [
        Case("no pattern", Missing(), tape),
        Case("no tape", good, Missing()),
        Case("neither file", Missing(), Missing()),
        Case("a refused pattern and no tape", Plain(b""), Missing()),
        Case("no pattern and a tape at fault", Missing(), Plain(b" ")),
        Case("a folder for the pattern", Folder(), tape),
        Case("a folder for the tape", good, Folder()),
        Case("an unreadable pattern", Unreadable(patterns.WORKED), tape),
        Case("an unreadable tape", good, Unreadable(b"3W2\n")),
        Case("a pattern linked to nothing", Link("nowhere", None), tape),
        Case("a tape linked to itself", good, Link("tape.txt", None)),
        Case("a pattern that opens and fails to read", Link("/proc/self/mem", None), tape),
        Case("a tape that opens and fails to read", good, Link("/proc/self/mem", None)),
        Case("standard output that takes nothing", good, tape, room=0),
        Case("standard output that takes 4,000 bytes", Plain(patterns.ANY), Plain(b"9" * 3600), room=4000),
    ]


def files_of_other_kinds():
    good, tape = Plain(patterns.WORKED), Plain(b"3W2\n")
    endless = bytes(10_000)
    nines = b"9" * 3600
    return [
        Case("the pattern by a pipe, a byte at a time", Pipe(patterns.WORKED), tape, LISTED),
        Case("the tape by a pipe, a byte at a time", good, Pipe(b"3W2\n"), LISTED),
        Case("both by pipes, a byte at a time", Pipe(patterns.WORKED), Pipe(b"3W2\n"), LISTED),
        Case("64 longest lines by a pipe", Pipe(patterns.LONGEST), Plain(b"5" * 64)),
        Case("65 lines by a pipe", Pipe(patterns.LINES_65), tape, refused(1, 64)),
        Case("3,600 letters by a pipe", Plain(patterns.ANY), Pipe(nines + b"\n")),
        Case("3,601 letters by a pipe", Plain(patterns.ANY), Pipe(nines + b"9\n"), refused(3, 0)),
        Case("a tape by a pipe in pieces of 7", Plain(patterns.ANY), Pipe(nines, 7)),
        Case("5 MB by a pipe for the tape", Plain(patterns.ANY), Pipe(b"9" * MEGABYTES_5, 4096), refused(3, 0)),
        Case("5 MB by a pipe for the pattern", Pipe(b"9" * MEGABYTES_5, 4096), tape, refused(1, 0)),
        Case("a pipe that hands out nothing for the tape", good, Pipe(b""), NO_LETTERS),
        Case("a pipe that hands out nothing for the pattern", Pipe(b""), tape, refused(1, 0)),
        Case("a tape that never ends", Plain(patterns.ANY), Link("/dev/zero", endless), refused(3, 0)),
        Case("a pattern that never ends", Link("/dev/zero", endless), tape, refused(1, 0)),
        Case("an empty device for the tape", good, Link("/dev/null", b""), NO_LETTERS),
    ]


CASES = [
    *closing_bytes(),
    *bytes_of_tapes(),
    *hot_letters(),
    *hot_texts(),
    *lengths_of_tapes(),
    *litres_and_codes(),
    *great_accounts(),
    *lazy_stars(),
    *forms_of_texts(),
    *trees_of_texts(),
    *files_not_read(),
    *files_of_other_kinds(),
]
