"""The worked examples of the scope, what calls take, terms, page desks, pieces that stand by themselves, where tapes break, refusals and
their words, numbers of any size, totals in any number of cells, and the version."""

import concurrent.futures
import copy
import ctypes
import datetime
import inspect
import multiprocessing
import pathlib
import pickle
import re
import typing
import unittest
from array import array

import wumbyra
from wumbyra import ACCOUNTS, CAUSES, MAX_LETTERS, MAX_PAGE_LETTERS, MAX_PAGES, Desk, Located, Pattern, Refused, version
from wumbyra._library import LIBRARY
from wumbyra._refused import PAGE_BYTE

LISTING = b"0\tR\t-\t0\t9\n1\tL\t-\tW\n2\tS\t9\t1\t0\n3\tR\t1\t0\t9\n4\tA\t-\t2\t3\n5\tK\t-\t4\n"
P1 = b"0\tL\t-\ta\n1\tE\t-\n2\tA\t-\t0\t1\n3\tK\t-\t2\n"
P3 = b"0\tL\t-\ta\n1\tK\t-\t0\n2\tL\t-\tb\n3\tK\t-\t2\n4\tS\t-\t1\t3\n5\tK\t-\t4\n"
P5 = b"0\tL\t-\ta\n1\tK\t-\t0\n2\tL\t-\ta\n3\tS\t-\t1\t2\n"
# Digits for account 1, `W` and a digit for account 9, and `D`, which ends a day.
DAYS = (
    b"0\tR\t-\t0\t9\n1\tL\t-\tW\n2\tS\t9\t1\t0\n3\tR\t1\t0\t9\n4\tL\t-\tD\n5\tA\t-\t3\t4\n6\tA\t-\t2\t5\n7\tK\t-\t6\n"
)
# Both kinds of star in a round of a third, and the lines of the one stand between those of the other.
MIXED = b"0\tL\t-\tx\n1\tR\t3\t0\t9\n2\tK\t-\t1\n3\tZ\t-\t0\n4\tS\t-\t2\t3\n5\tK\t9\t4\n"
FIRST_DAY, LAST_DAY = datetime.date(2000, 1, 1), datetime.date(2099, 12, 31)
ROOM = ACCOUNTS + 7  # cells, of which the last ones are lent to no call
REPOSITORY = pathlib.Path(__file__).resolve().parents[2]


def litres(some):
    """All totals: those of the accounts that are named, and 0 for the others."""
    return [some.get(account, 0) for account in range(ACCOUNTS)]


def code(bits):
    """Bytes and bit count of bits written as 0 and 1."""
    size = (len(bits) + 7) // 8
    return int(bits.ljust(8 * size, "0") or "0", 2).to_bytes(size, "big"), len(bits)


def read(tape):
    """For a process pool, which sends a function by its name."""
    return Pattern(LISTING).parse(tape)


class Case(unittest.TestCase):
    def refused(self, number, value, call, *arguments):
        with self.assertRaises(Refused) as caught:
            call(*arguments)
        self.assertEqual((caught.exception.number, caught.exception.value), (number, value))


class Services(Case):
    def test_tapes_to_try(self):
        for text, tape, bits in [
            (P1, b"", "1"),
            (P1, b"a", "001"),
            (P3, b"ab", "001011"),
            (P3, b"ba", "010100111"),
            (P5, b"aa", "01"),
        ]:
            found, count, _ = Pattern(text).parse(tape)
            self.assertEqual((found, count), code(bits))
            self.assertEqual(Pattern(text).flatten(found, count), tape)
        self.assertEqual(Pattern(P1).canonicalize(*code("011")), code("1"))
        self.assertEqual(Pattern(P1).canonicalize(*code("01001")), code("001"))

    def test_a_lazy_star(self):
        # It prefers to stop, and must take a letter first: no round of the star above it is empty.
        pattern = Pattern(b"0\tL\t-\ta\n1\tZ\t-\t0\n2\tK\t-\t1\n")
        self.assertEqual(pattern.lines, 3)
        found, bits, _ = pattern.parse(b"a")
        self.assertEqual((found, bits), (b"\x50", 4))
        self.assertEqual(pattern.flatten(found, bits), b"a")
        self.assertEqual(pattern.canonicalize(found, bits), code("0101"))
        # Two letters in one round, and an empty round.
        self.assertEqual(pattern.canonicalize(*code("01101")), code("0100101"))
        self.assertEqual(pattern.canonicalize(*code("001")), code("1"))
        self.refused(1, 1, Pattern, b"0\tE\t-\n1\tz\t-\t0\n")

    def test_hot_letters(self):
        # A letter of the hot side, and a range across the gap. Byte 185, a 9 with the highest bit set, is no litre.
        pattern = Pattern(b"0\tL\t2\t\xa1\n1\tR\t1\t0\t\xb9\n2\tA\t-\t0\t1\n3\tK\t-\t2\n")
        tape = b"\xa17\xb9"
        found, bits, _ = pattern.parse(tape)
        self.assertEqual((found, bits), code("00010011011101101110011"))
        self.assertEqual(pattern.flatten(found, bits), tape)
        self.assertEqual(pattern.canonicalize(found, bits), (found, bits))
        self.assertEqual(pattern.piece(tape, found, bits, 0, 0), b"\xa1")
        self.assertEqual(pattern.piece(tape, found, bits, 1, 1), b"\xb9")
        self.assertEqual(pattern.totals(found, bits), litres({1: 7}))
        # Bytes 127 to 160 lie between the ends of the range, and are no letters.
        for byte in [32, 127, 128, 160, 255]:
            self.refused(4, 1, pattern.parse, bytes([55, byte]))
            self.refused(8, 0, pattern.flatten, *code(f"01{byte:08b}1"))
            self.refused(1, 0, Pattern, b"0\tR\t-\t!\t" + bytes([byte]) + b"\n")
        # In UTF-8 an umlaut is two bytes: two letters of a tape, and none for a field.
        self.assertEqual(len(Pattern(b"0\tR\t-\t!\t\xfe\n1\tK\t-\t0\n").parse("ä".encode()).words), 6)
        self.refused(1, 0, Pattern, "0\tL\t-\tä\n".encode())
        self.assertEqual(Pattern(b"0\tR\t-\t~\t\xa1\n").lines, 1)

    def test_stale_litres(self):
        # Litres under a node of account 9 go there, though account 4 is nearer; the 7 stands beside it and goes to account 3.
        pattern = Pattern(b"0\tR\t4\t0\t9\n1\tK\t9\t0\n2\tL\t-\t7\n3\tS\t3\t1\t2\n")
        found, bits, _ = pattern.parse(b"567")
        self.assertEqual((found, bits), code("0001101010001101101"))
        due = litres({3: 7, 9: 11})
        self.assertEqual(pattern.totals(found, bits), due)
        self.assertEqual(pattern.total(found, bits, 9), 11)
        self.assertEqual(pattern.term_totals(found, bits, *(3 * [FIRST_DAY])), due)

    def test_accounts_to_200(self):
        # Each account has litres of its own; only 9 takes those of a line below it.
        for account in range(1, ACCOUNTS):
            text = f"0\tL\t{account}\t5\n1\tL\t3\t7\n2\tK\t{account}\t1\n3\tS\t-\t0\t2\n".encode()
            pattern = Pattern(text)
            found, bits, _ = pattern.parse(b"577")
            due = {account: 5}
            below = 9 if account == 9 else 3
            due[below] = due.get(below, 0) + 14
            self.assertEqual(pattern.totals(found, bits), litres(due))
            self.assertEqual(pattern.total(found, bits, account), due[account])
            self.assertEqual(pattern.term_totals(found, bits, *(3 * [FIRST_DAY])), litres(due))
        self.assertEqual(len(litres({})), 201)
        for account in [201, 256, 256 + 200, 2**32 + 200]:
            self.assertEqual(pattern.total(found, bits, account), 0)

    def test_account_fields(self):
        for field in ["-", "1", "9", "10", "99", "100", "109", "199", "200"]:
            self.assertEqual(Pattern(f"0\tE\t{field}\n".encode()).lines, 1)
        for field in ["", "0", "00", "01", "09", "010", "020", "201", "209", "256", "265", "1000", "+9", "-9", "9-", " 9", "9 ", "--"]:
            self.refused(1, 1, Pattern, f"0\tE\t-\n1\tK\t{field}\t0\n".encode())

    def test_a_whole_listing(self):
        pattern = Pattern(LISTING)
        self.assertEqual(pattern.lines, 6)
        found, bits, words = pattern.parse(b"3W2")
        self.assertEqual((found.hex(), bits), ("4cc328", 21))
        self.assertEqual([bin(word).count("1") for word in words[1::2]], [4, 4, 4, 1])
        totals = [pattern.total(found, bits, account) for account in range(ACCOUNTS + 1)]
        self.assertEqual(totals, litres({1: 3, 9: 2}) + [0])
        self.assertEqual(pattern.totals(found, bits), totals[:ACCOUNTS])
        self.assertEqual(pattern.span(b"3W2", found, bits, 2, 0), (1, 2))
        self.assertEqual(pattern.piece(b"3W2", found, bits, 2, 0), b"W2")
        self.assertEqual(pattern.piece(bytearray(b"3W2"), found, bits, 4, 0), b"3")

    def test_words_are_an_array(self):
        parsed = Pattern(LISTING).parse(b"3W2")
        self.assertIsInstance(parsed.words, array)
        self.assertEqual((parsed.words.typecode, parsed.words.itemsize, len(parsed.words)), ("Q", 8, 8))
        self.assertEqual(parsed.words.tolist(), [0x39, 0x39, 0x36, 0x36, 0x39, 0x39, 0, 0x20])

    def test_whatever_holds_bytes_is_taken(self):
        pattern = Pattern(bytearray(LISTING))
        for tape in [bytearray(b"3W2"), memoryview(b"3W2"), array("B", b"3W2"), memoryview(b"-3-W-2")[1::2]]:
            parsed = pattern.parse(tape)
            self.assertEqual(pattern.flatten(memoryview(parsed.code), parsed.bits), b"3W2")
        self.assertRaises(TypeError, Pattern, LISTING.decode())
        self.assertRaises(TypeError, pattern.parse, "3W2")
        self.assertRaises(TypeError, pattern.parse, 3)

    def test_what_is_wider_than_a_byte_is_not_taken(self):
        pattern = Pattern(LISTING)
        found, bits, _ = pattern.parse(b"3W2")
        for kind in "HILQfd":
            wide = array(kind, list(b"3W2"))
            for call, given in [
                (Pattern, [array(kind, list(LISTING))]),
                (pattern.parse, [wide]),
                (pattern.parse, [memoryview(wide)]),
                (pattern.totals, [array(kind, list(found)), bits]),
                (pattern.span, [wide, found, bits, 0, 0]),
                (pattern.piece, [b"3W2", array(kind, list(found)), bits, 0, 0]),
                (Desk(pattern).put, [wide]),
            ]:
                with self.assertRaisesRegex(TypeError, f"^bytes are due, and the items of this .* have {wide.itemsize} bytes each$"):
                    call(*given)
        self.assertEqual(pattern.parse(array("b", b"3W2")).bits, bits)
        self.assertEqual(pattern.parse((ctypes.c_uint8 * 3)(*b"3W2")).bits, bits)

    def test_what_parse_gives_is_a_code(self):
        pattern, tape = Pattern(DAYS), b"1D2W3"
        parsed = pattern.parse(tape)
        canonical = pattern.canonicalize(parsed)
        self.assertEqual(canonical, parsed[:2])
        self.assertEqual([type(parsed), type(canonical)], [wumbyra.Parsed, wumbyra.Code])
        days = FIRST_DAY, FIRST_DAY, FIRST_DAY
        for one in [parsed, canonical]:
            both = one[:2]
            self.assertEqual(pattern.canonicalize(one), canonical)
            self.assertEqual(pattern.flatten(one), tape)
            self.assertEqual(pattern.totals(one), pattern.totals(*both))
            self.assertEqual(pattern.total(one, 9), 3)
            self.assertEqual(pattern.term_totals(one, *days), pattern.term_totals(*both, *days))
            self.assertEqual(pattern.span(tape, one, 2, 0), (3, 2))
            self.assertEqual(pattern.piece(tape, one, 2, 0), b"W3")
            # By name, too, alone and with the others.
            self.assertEqual(pattern.totals(code=one), pattern.totals(code=both[0], bits=both[1]))
            self.assertEqual(pattern.total(one, account=9), pattern.total(*both, account=9))
            self.assertEqual(pattern.span(tape, code=one, node=2, visit=0), (3, 2))
            self.assertEqual(pattern.term_totals(one, start=days[0], first=days[1], last=days[2]), litres({1: 1}))
            for call, given, named in [
                (pattern.totals, [one, one.bits], {}),
                (pattern.totals, [one], {"bits": one.bits}),
                (pattern.totals, [], {"code": one, "bits": one.bits}),
                (pattern.total, [one], {}),
                (pattern.totals, [tuple(both)], {}),
                (pattern.totals, [both[0]], {}),
                (pattern.parse, [one], {}),
            ]:
                self.assertRaises(TypeError, call, *given, **named)
        self.refused(8, 0, Pattern(P1).totals, parsed)

    def test_patterns_are_equal_by_their_text(self):
        one, same, other = Pattern(LISTING), Pattern(bytearray(LISTING)), Pattern(P1)
        self.assertTrue(one == same and not one != same and one != other and not one == other)
        self.assertEqual((hash(one), len({one, same, other}), {one: 1}[same]), (hash(same), 2, 1))
        self.assertEqual(pickle.loads(pickle.dumps(one)), one)
        self.assertEqual([one == given for given in (LISTING, None, 6)], 3 * [False])
        self.assertEqual(Desk(one).pattern, same)

    def test_totals_in_any_number_of_cells(self):
        found, bits, _ = Pattern(LISTING).parse(b"3W2")
        for cells in [*range(13), *range(ACCOUNTS - 2, ACCOUNTS + 4)]:
            written = min(cells, ACCOUNTS)
            # The library sees the first cells only, those after them are canaries. Account 9 has litres: without its cell it is 20.
            given = (bits, 0, litres({1: 3, 9: 2})) if cells > 9 else (bits, 20, litres({}))
            for count, number, totals in [given, (bits + 1, 8, litres({}))]:
                lent = (ctypes.c_uint32 * ROOM)(*(ROOM * [77]))
                answer = LIBRARY.wumbyra_totals(LISTING, len(LISTING), found, len(found), count, lent, cells)
                self.assertEqual(answer, number << 32)
                self.assertEqual(list(lent), totals[:written] + (ROOM - written) * [77])

    def test_longest_tape(self):
        found, bits, words = Pattern(P1).parse(3600 * b"a")
        self.assertEqual((bits, len(words)), (7201, 7202))
        self.assertEqual(Pattern(P1).flatten(found, bits), 3600 * b"a")
        self.assertEqual(Pattern(P1).canonicalize(found, bits), (found, bits))


class Terms(Case):
    def test_terms_inside_across_and_outside(self):
        pattern = Pattern(DAYS)
        found, bits, _ = pattern.parse(b"1D2W3DD4")
        start = datetime.date(2024, 2, 27)
        for first, last, (one, nine) in [
            (start, start, (1, 0)),
            ((2024, 2, 28), (2024, 2, 28), (2, 3)),
            ((2024, 2, 29), (2024, 2, 29), (0, 0)),
            ((2024, 3, 1), datetime.date(2024, 3, 1), (4, 0)),
            (start, (2024, 2, 28), (3, 3)),
            ((2024, 2, 28), (2024, 3, 1), (6, 3)),
            (FIRST_DAY, LAST_DAY, (7, 3)),
            (FIRST_DAY, (2024, 2, 26), (0, 0)),
            ((2024, 3, 2), LAST_DAY, (0, 0)),
        ]:
            totals = pattern.term_totals(found, bits, start, first, last)
            self.assertEqual(totals, litres({1: one, 9: nine}))
        self.assertEqual(pattern.term_totals(found, bits, start, FIRST_DAY, LAST_DAY), pattern.totals(found, bits))
        # Of a year without a leap day the fourth day is another one.
        self.assertEqual(pattern.term_totals(found, bits, (2023, 2, 27), (2023, 3, 2), (2023, 3, 2))[1], 4)

    def test_every_date_is_stepped(self):
        pattern = Pattern(DAYS)
        found, bits, _ = pattern.parse(b"1D2")
        due = litres({1: 2})
        date, stepped = FIRST_DAY, 0
        while date < LAST_DAY:
            following = date + datetime.timedelta(1)
            self.assertEqual(pattern.term_totals(found, bits, date, following, following), due, date)
            date, stepped = following, stepped + 1
        self.assertEqual(stepped, 36524)  # all of the 36,525 days but the last, which none follows
        self.refused(11, 0, pattern.term_totals, found, bits, LAST_DAY, LAST_DAY, LAST_DAY)

    def test_what_is_no_date(self):
        pattern = Pattern(DAYS)
        empty = code("1")
        for year in [1999, *range(2000, 2100, 9), 2023, 2100]:
            for month in range(15):
                for day in [*range(4), *range(27, 34), 99]:
                    try:
                        due = FIRST_DAY <= datetime.date(year, month, day) <= LAST_DAY
                    except ValueError:
                        due = False
                    given = year, month, day
                    if due:
                        self.assertEqual(pattern.term_totals(*empty, given, given, given), litres({}))
                    else:
                        self.refused(11, 0, pattern.term_totals, *empty, given, FIRST_DAY, LAST_DAY)
                        self.refused(12, 0, pattern.term_totals, *empty, FIRST_DAY, given, LAST_DAY)
                        self.refused(12, 0, pattern.term_totals, *empty, FIRST_DAY, FIRST_DAY, given)

    def test_greater_numbers_make_no_other_date(self):
        # Each of these would be a date if it were only put into one number, and cut to 32 bits.
        pattern = Pattern(DAYS)
        for given in [(2024, 1, 129), (2024, 0, 10101), (2023, 101, 1), (2024, 112, 31), (431520, 75, 25), (2024, 2**32 + 2, 29)]:
            self.refused(11, 0, pattern.term_totals, *code("1"), given, FIRST_DAY, LAST_DAY)
            self.refused(12, 0, pattern.term_totals, *code("1"), FIRST_DAY, given, LAST_DAY)
        for given in [(10**100, 1, 1), (2024, 10**100, 1), (2024, 1, 10**100)]:
            self.refused(11, 0, pattern.term_totals, *code("1"), given, given, given)

    def test_the_order_of_checks(self):
        pattern = Pattern(DAYS)
        found, bits, _ = pattern.parse(b"1D2")
        none = 0, 0, 0
        self.refused(8, 0, pattern.term_totals, found, bits + 1, none, none, none)
        self.refused(8, 0, pattern.term_totals, found, 2**32 + bits, none, none, none)
        self.refused(3, 0, Pattern(P1).term_totals, *code(3601 * "00" + "1"), none, none, none)
        self.refused(11, 0, pattern.term_totals, found, bits, none, none, none)
        self.refused(12, 0, pattern.term_totals, found, bits, FIRST_DAY, LAST_DAY, FIRST_DAY)
        # The `D` that ends 2099 has a date, and a letter behind it has none, whatever the term.
        self.assertEqual(pattern.term_totals(*pattern.parse(b"1D")[:2], LAST_DAY, LAST_DAY, LAST_DAY)[1], 1)
        for tape in [b"1D2", b"1DD"]:
            for first, last in [(LAST_DAY, LAST_DAY), (FIRST_DAY, FIRST_DAY), (LAST_DAY, FIRST_DAY), (none, none)]:
                self.refused(11, 0, pattern.term_totals, *pattern.parse(tape)[:2], LAST_DAY, first, last)

    def test_dates_in_letters(self):
        pattern = Pattern(DAYS)
        parsed = pattern.parse(b"1D2W3DD4")
        self.assertEqual(pattern.term_totals(parsed, "2024-02-27", "2024-02-28", "2024-03-01"), litres({1: 6, 9: 3}))
        self.assertEqual(pattern.term_totals(parsed, "2024-02-27", (2024, 2, 28), datetime.date(2024, 3, 1)), litres({1: 6, 9: 3}))
        for given in ["2023-02-29", "2024-00-01", "2024-13-01", "2024-01-32", "1999-12-31", "2100-01-01", "0000-00-00"]:
            self.refused(11, 0, pattern.term_totals, parsed, given, FIRST_DAY, LAST_DAY)
            self.refused(12, 0, pattern.term_totals, parsed, "2024-02-27", given, LAST_DAY)
        for given in ["", "day", "20240227", "2024-2-27", "2024-02-27 ", "2024-02-27\n", "2024/02/27", "-2024-02-27", "\u0662024-02-27"]:
            with self.assertRaises(ValueError) as caught:
                pattern.term_totals(parsed, given, FIRST_DAY, LAST_DAY)
            self.assertEqual(str(caught.exception), f"a date in letters is written as 2024-02-27, and not as {given!r}")

    def test_what_is_not_three_numbers(self):
        pattern = Pattern(DAYS)
        for given in [(2024, -1, 1), (-1, 1, 1), (2024, 1, -(2**32)), (2024, 1), (2024, 1, 1, 1)]:
            for dates in [(given, FIRST_DAY, LAST_DAY), (FIRST_DAY, given, LAST_DAY), (FIRST_DAY, LAST_DAY, given)]:
                self.assertRaises(ValueError, pattern.term_totals, b"", 0, *dates)
        for given in [(2024, 1, 1.0), (2024, "1", 1), [2024, None, 1]]:
            self.assertRaises(TypeError, pattern.term_totals, b"", 0, given, FIRST_DAY, LAST_DAY)
        self.refused(8, 0, pattern.term_totals, b"", 0, [2024, 1, 1], FIRST_DAY, LAST_DAY)

    def test_what_is_no_kind_of_date(self):
        pattern = Pattern(DAYS)
        # Three bytes and three numbers of a set or dict can be gone through, and are no date all the same.
        for given in [20240101, 2024.5, None, b"2024-01-01", b"\1\2\3", {2024, 1, 2}, {2024: 0, 1: 0, 2: 0}, iter((2024, 1, 1))]:
            words = f"a date is a datetime.date, a text as '2024-02-27' or three numbers, and not of type {type(given).__name__}"
            for dates in [(given, FIRST_DAY, LAST_DAY), (FIRST_DAY, given, LAST_DAY), (FIRST_DAY, LAST_DAY, given)]:
                with self.assertRaises(TypeError) as caught:
                    pattern.term_totals(b"", 0, *dates)
                self.assertEqual(str(caught.exception), words)

    def test_terms_in_any_number_of_cells(self):
        found, bits, _ = Pattern(DAYS).parse(b"1D2W3")
        due, none = litres({1: 2, 9: 3}), litres({})
        for cells in [*range(13), *range(ACCOUNTS - 2, ACCOUNTS + 4)]:
            written = min(cells, ACCOUNTS)
            # The library sees the first cells only, those after them are canaries. Account 9 has litres: without its cell it is 20.
            given = (20250101, 0, due) if cells > 9 else (20250101, 20, none)
            for last, number, totals in [given, (20241231, 12, none), (20250100, 12, none)]:
                lent = (ctypes.c_uint32 * ROOM)(*(ROOM * [77]))
                dates = 20241231, 20250101, last
                answer = LIBRARY.wumbyra_term_totals(DAYS, len(DAYS), found, len(found), bits, *dates, lent, cells)
                self.assertEqual(answer, number << 32)
                self.assertEqual(list(lent), totals[:written] + (ROOM - written) * [77])


def turned(words):
    """The words of a parse, counted from the tape's end."""
    return array("Q", [word for at in range(len(words) - 2, -1, -2) for word in words[at : at + 2]])


class Desks(Case):
    def test_pages_newest_first(self):
        pattern = Pattern(LISTING)
        desk = Desk(pattern)
        self.assertEqual((desk.letters, desk.pages, list(desk.words)), (b"", [], [0, 0x20]))
        self.refused(15, 0, desk.withdraw)
        self.assertEqual(desk.put(b"2"), 1)
        self.assertEqual(desk.put(b"9W9"), 4)
        self.assertEqual((desk.letters, desk.pages), (b"9W92", [b"9W9", b"2"]))
        self.assertEqual(desk.withdraw(), 1)
        self.assertEqual(desk.put(bytearray(b"3W")), 3)
        self.assertEqual(desk.letters, b"3W2")
        self.assertEqual(desk.words, turned(pattern.parse(desk.letters).words))
        self.assertEqual(repr(desk), "<Desk of 2 pages, 3 letters>")
        held = desk.letters, desk.pages, desk.words
        for page in [b"", (MAX_PAGE_LETTERS + 1) * b"3"]:
            self.refused(13, 0, desk.put, page)
        self.refused(4, 1, desk.put, b"3 ")
        with self.assertRaises(Refused) as caught:
            desk.put(b"3 ")
        self.assertEqual(str(caught.exception), "the byte at position 1 of the page is no letter")
        self.assertRaises(TypeError, desk.put, "3")
        self.assertEqual((desk.letters, desk.pages, desk.words), held)
        again = pickle.loads(pickle.dumps(desk.letters))
        self.assertEqual(again, b"3W2")
        desk.open()
        self.assertEqual((desk.letters, len(desk.words)), (b"", 2))

    def test_a_full_desk(self):
        pattern = Pattern(P1)
        desk = Desk(pattern)
        for page in range(1, MAX_PAGES + 1):
            self.assertEqual(desk.put(MAX_PAGE_LETTERS * b"a"), page * MAX_PAGE_LETTERS)
        self.assertEqual(desk.letters, MAX_LETTERS * b"a")
        self.assertEqual(desk.words, turned(pattern.parse(desk.letters).words))
        self.refused(14, 0, desk.put, b"a")
        for page in reversed(range(MAX_PAGES)):
            self.assertEqual(desk.withdraw(), page * MAX_PAGE_LETTERS)
        self.refused(15, 0, desk.withdraw)

    def test_a_desk_has_a_pattern(self):
        for given in [LISTING, LISTING.decode(), None, Desk(Pattern(LISTING))]:
            with self.assertRaises(TypeError) as caught:
                Desk(given)
            self.assertEqual(str(caught.exception), f"a desk is opened with a Pattern, and this is of type {type(given).__name__}")

    def test_a_desk_is_copied(self):
        desk = Desk(Pattern(LISTING))
        desk.put(b"W2")
        for again in [copy.deepcopy(desk), pickle.loads(pickle.dumps(desk))]:
            self.assertEqual(again.put(b"3"), 3)
            self.assertEqual((again.letters, desk.letters), (b"3W2", b"W2"))

    def test_the_order_of_checks(self):
        """Through the library itself: texts, desks and buffers that a Desk never lends."""
        text = P1, len(P1)
        letters, words = (ctypes.c_uint8 * 3600)(*(3600 * b"a")), (ctypes.c_uint64 * 8)()
        for length, number in [(30, 13), (31, 0), (32, 13), (0, 13)]:
            desk = (ctypes.c_uint8 * 32)(*(32 * b"\xff"))
            self.assertEqual(LIBRARY.wumbyra_desk_open(b"", 0, desk, length, words, 0), 2 << 32)
            self.assertEqual(LIBRARY.wumbyra_desk_open(*text, desk, length, words, 1), 6 << 32 | 2)
            self.assertEqual(LIBRARY.wumbyra_desk_open(*text, desk, length, words, 2), number << 32)
            self.assertEqual(bytes(desk), 32 * b"\xff" if number else 31 * b"\0" + b"\xff")
        desk = (ctypes.c_uint8 * 31)(*([30] + 30 * [1]))
        for page, cells, room, number, value in [
            (b" ", 3599, 0, 9, 3600),
            (b"", 3600, 0, 13, 0),
            (121 * b" ", 3600, 0, 13, 0),
            (b" ", 3600, 0, 14, 0),
        ]:
            answer = LIBRARY.wumbyra_desk_put(*text, desk, 31, page, len(page), letters, cells, words, room)
            self.assertEqual(answer, number << 32 | value)
        desk[0] = 0
        self.assertEqual(LIBRARY.wumbyra_desk_put(*text, desk, 31, b"a ", 2, letters, 3600, words, 0), 4 << 32 | 1)
        self.assertEqual(LIBRARY.wumbyra_desk_put(*text, desk, 31, b"aa", 2, letters, 3600, words, 5), 6 << 32 | 6)
        self.assertEqual(bytes(desk), bytes([0] + 30 * [1]))
        self.assertEqual(LIBRARY.wumbyra_desk_put(*text, desk, 31, b"aa", 2, letters, 3600, words, 6), 2)
        self.assertEqual(LIBRARY.wumbyra_desk_withdraw(*text, desk, 31, letters, 3600), 0)
        self.assertEqual(LIBRARY.wumbyra_desk_withdraw(*text, desk, 31, letters, 3600), 15 << 32)


def balanced(letters):
    """The text of a pattern with these letters one after the other, a power of two of them: the leaves first, then level by level."""
    lines = [(b"L", b"%d" % (1 + letter % 200), bytes([letter])) for letter in letters]
    lines += [(b"S", b"-", b"%d" % (2 * at), b"%d" % (2 * at + 1)) for at in range(len(letters) - 1)]
    return b"".join(b"\t".join([b"%d" % place, *line]) + b"\n" for place, line in enumerate(lines))


class Pieces(Case):
    def test_each_node(self):
        pattern = Pattern(MIXED)
        for node, text in enumerate(
            [
                b"0\tL\t-\tx\n",
                b"0\tR\t3\t0\t9\n",
                b"0\tR\t3\t0\t9\n1\tK\t-\t0\n",
                b"0\tL\t-\tx\n1\tZ\t-\t0\n",
                b"0\tL\t-\tx\n1\tR\t3\t0\t9\n2\tK\t-\t1\n3\tZ\t-\t0\n4\tS\t-\t2\t3\n",
                MIXED,
            ]
        ):
            made = pattern.subpattern(node)
            self.assertIsInstance(made, Pattern)
            self.assertEqual((made.text, made.lines), (text, text.count(b"\n")))
        self.assertEqual(pattern.text, MIXED)

    def test_the_root_gives_the_text_itself(self):
        for text in [LISTING, P1, P3, P5, DAYS, MIXED, b"0\tE\t-\n", b"0\tE\t200\n"]:
            pattern = Pattern(text)
            self.assertEqual(pattern.subpattern(pattern.lines - 1).text, text)

    def test_parts_keep_their_order(self):
        # The first part has the greater place, before and after.
        self.assertEqual(Pattern(LISTING).subpattern(2).text, b"0\tR\t-\t0\t9\n1\tL\t-\tW\n2\tS\t9\t1\t0\n")
        pattern = Pattern(b"0\tL\t-\ta\n1\tE\t-\n2\tL\t-\tb\n3\tA\t-\t2\t1\n4\tS\t-\t3\t0\n")
        self.assertEqual(pattern.subpattern(3).text, b"0\tE\t-\n1\tL\t-\tb\n2\tA\t-\t1\t0\n")

    def test_letters_are_no_places(self):
        # Letters that look like places, accounts and kinds, and letters of the hot side.
        pattern = Pattern(
            b"0\tL\t-\tx\n1\tL\t10\t3\n2\tR\t200\t0\t3\n3\tS\t-\t1\t2\n4\tR\t-\t-\t9\n5\tA\t9\t3\t4\n6\tS\t-\t0\t5\n"
            b"7\tL\t-\tK\n8\tR\t-\tS\tZ\n9\tR\t3\t!\t\xfe\n10\tL\t-\t\xa1\n11\tS\t-\t7\t8\n12\tA\t-\t9\t10\n13\tS\t-\t12\t11\n"
            b"14\tS\t-\t6\t13\n"
        )
        for node, text in [
            (1, b"0\tL\t10\t3\n"),
            (2, b"0\tR\t200\t0\t3\n"),
            (4, b"0\tR\t-\t-\t9\n"),
            (5, b"0\tL\t10\t3\n1\tR\t200\t0\t3\n2\tS\t-\t0\t1\n3\tR\t-\t-\t9\n4\tA\t9\t2\t3\n"),
            (7, b"0\tL\t-\tK\n"),
            (8, b"0\tR\t-\tS\tZ\n"),
            (9, b"0\tR\t3\t!\t\xfe\n"),
            (10, b"0\tL\t-\t\xa1\n"),
            (11, b"0\tL\t-\tK\n1\tR\t-\tS\tZ\n2\tS\t-\t0\t1\n"),
            (12, b"0\tR\t3\t!\t\xfe\n1\tL\t-\t\xa1\n2\tA\t-\t0\t1\n"),
        ]:
            self.assertEqual(pattern.subpattern(node).text, text)
        # Every letter there is.
        for byte in [*range(33, 127), *range(161, 255)]:
            leaf = b"L\t9\t" + bytes([byte])
            pattern = Pattern(b"0\tE\t-\n1\t" + leaf + b"\n2\tS\t-\t0\t1\n")
            self.assertEqual(pattern.subpattern(1).text, b"0\t" + leaf + b"\n")

    def test_64_lines(self):
        letters = [*range(48, 64), *range(240, 224, -1)]
        text = balanced(letters) + b"63\tK\t9\t62\n"
        pattern = Pattern(text)
        self.assertEqual(pattern.lines, 64)
        self.assertEqual(pattern.subpattern(63).text, text)
        node = 0
        for size in [1, 2, 4, 8, 16, 32]:
            for first in range(0, 32, size):
                self.assertEqual(pattern.subpattern(node).text, balanced(letters[first : first + size]))
                node += 1
        self.assertEqual(node, 63)
        # The deepest tree: each line but the first is a star over the one before it.
        lines = [b"0\tL\t-\ta\n", *(b"%d\t%c\t-\t%d\n" % (place, b"KZ"[place % 2], place - 1) for place in range(1, 64))]
        pattern = Pattern(b"".join(lines))
        for node in range(64):
            self.assertEqual(pattern.subpattern(node).text, b"".join(lines[: node + 1]))

    def test_a_subpattern_of_a_subpattern(self):
        pattern = Pattern(MIXED)
        # A node, a node at or below it by its new place, and the place that this one has in the whole.
        for outer, inner, node in [
            (0, 0, 0), (1, 0, 1), (2, 0, 1), (2, 1, 2), (3, 0, 0), (3, 1, 3),
            (4, 0, 0), (4, 1, 1), (4, 2, 2), (4, 3, 3), (4, 4, 4), *((5, node, node) for node in range(6)),
        ]:  # fmt: skip
            self.assertEqual(pattern.subpattern(outer).subpattern(inner).text, pattern.subpattern(node).text)

    def test_each_piece_stands_by_itself(self):
        pattern, tape = Pattern(MIXED), b"7x"
        # Line 5 goes through two rounds: a 0 before each, and a 1 after the last. In the first the `Z` stops at once, since another round
        # can read the x. In the second it must take the x: else the round would be empty.
        # Bit:   0   1            11  12  13  14   16
        whole = "0" "0001101111" "0" "0" "1" "10" "1"
        found, bits, _ = pattern.parse(tape)
        self.assertEqual((found, bits), code(whole))
        # For each node its visits: start and length of the piece, and the first bit and the number of bits.
        for node, visits in enumerate(
            [
                [(1, 1, 15, 0)],
                [(0, 1, 2, 8)],
                [(0, 1, 1, 10), (1, 0, 13, 1)],
                [(1, 0, 11, 1), (1, 1, 14, 2)],
                [(0, 1, 1, 11), (1, 1, 13, 3)],
                [(0, 2, 0, 17)],
            ]
        ):
            alone = pattern.subpattern(node)
            for visit, (start, length, first, count) in enumerate(visits):
                self.assertEqual(pattern.span(tape, found, bits, node, visit), (start, length))
                piece = pattern.piece(tape, found, bits, node, visit)
                self.assertEqual(piece, tape[start : start + length])
                cut = code(whole[first : first + count])
                self.assertEqual(alone.parse(piece)[:2], cut)
                self.assertEqual(alone.canonicalize(*cut), cut)
                self.assertEqual(alone.flatten(*cut), piece)
            self.refused(10, 0, pattern.span, tape, found, bits, node, len(visits))

    def test_an_empty_tape_and_its_pieces(self):
        # Nothing is read, and still a star writes the bit that stops it: 1 for `K`, 0 for `Z`.
        pattern = Pattern(b"0\tL\t-\ta\n1\tK\t-\t0\n2\tL\t-\tb\n3\tZ\t-\t2\n4\tS\t-\t1\t3\n5\tE\t-\n6\tA\t-\t4\t5\n")
        found, bits, _ = pattern.parse(b"")
        self.assertEqual((found, bits), code("010"))
        for node, cut in [(1, "1"), (3, "0"), (4, "10"), (6, "010")]:
            self.assertEqual(pattern.span(b"", found, bits, node, 0), (0, 0))
            self.assertEqual(pattern.subpattern(node).parse(b"")[:2], code(cut))
        # The first bit of the `A` is its own, and not its side's: nothing is left for an `E`.
        self.assertEqual(pattern.subpattern(5).parse(b"")[:2], code(""))

    def test_totals_of_a_piece_may_differ(self):
        # The account 9 of line 5 is above the cut, so only the whole has it.
        pattern = Pattern(MIXED)
        whole = pattern.parse(b"7x")
        self.assertEqual(pattern.totals(whole.code, whole.bits), litres({9: 7}))
        for node in [1, 2, 4]:
            alone = pattern.subpattern(node)
            piece = alone.parse(pattern.piece(b"7x", whole.code, whole.bits, node, 0))
            self.assertEqual(alone.totals(piece.code, piece.bits), litres({3: 7}))
        # An account above a cut without one is missing as well; one of the node itself goes along.
        pattern = Pattern(b"0\tR\t-\t0\t9\n1\tK\t200\t0\n2\tK\t10\t1\n")
        for node, account in [(0, 0), (1, 200), (2, 200)]:
            alone = pattern.subpattern(node)
            piece = alone.parse(b"5")
            self.assertEqual(alone.totals(piece.code, piece.bits), litres({account: 5}))

    def test_what_is_no_node(self):
        for text in [MIXED, b"0\tE\t-\n"]:
            pattern = Pattern(text)
            for node in [pattern.lines, pattern.lines + 1, 64, 2**32 - 1, 2**32, 2**32 + 1, 2**64, 10**100, 10**5000]:
                self.assertRaises(IndexError, pattern.subpattern, node)
            for node in [-1, -pattern.lines, -(2**32), -(10**100)]:
                self.assertRaises(ValueError, pattern.subpattern, node)
            for node in [0.0, "0", b"0", None, [0]]:
                self.assertRaises(TypeError, pattern.subpattern, node)
        with self.assertRaises(IndexError) as caught:
            Pattern(MIXED).subpattern(6)
        self.assertEqual(str(caught.exception), "the nodes of this pattern are 0 to 5, and 6 is above")
        with self.assertRaises(ValueError) as negative:
            Pattern(MIXED).subpattern(-1)
        self.assertEqual(str(negative.exception), "a node is a number from 0 on, and -1 is below")


class Refusals(Case):
    def test_refusals(self):
        self.refused(1, 0, Pattern, b"")
        self.refused(2, 1, Pattern, b"0\tE\t-\n1\tK\t-\t1\n")
        pattern = Pattern(P1)
        self.refused(3, 0, pattern.parse, 3601 * b"a")
        self.refused(4, 2, pattern.parse, b"aa a")
        self.refused(5, 0, Pattern(P5).parse, b"")
        self.refused(8, 0, pattern.flatten, b"", 0)
        self.refused(8, 0, pattern.totals, b"", 0)
        self.refused(3, 0, pattern.totals, *code(3601 * "00" + "1"))
        self.refused(3, 0, pattern.canonicalize, *code(3601 * "00" + "1"))
        self.refused(10, 0, pattern.span, b"a", *code("001"), 0, 1)
        self.refused(10, 0, pattern.piece, b"a", *code("001"), 4, 0)

    def test_numbers_above_32_bits_are_refused_in_order(self):
        pattern = Pattern(P1)
        found, bits = code("001")
        for great in [2**32 - 1, 2**32, 2**32 + bits, 2**64, 10**100]:
            for call in [pattern.flatten, pattern.canonicalize, pattern.totals]:
                self.refused(8, 0, call, found, great)
            self.refused(8, 0, pattern.total, found, great, great)
            self.assertEqual(pattern.total(found, bits, great), 0)
            self.refused(10, 0, pattern.span, b"a", found, bits, great, 0)
            self.refused(10, 0, pattern.span, b"a", found, bits, 0, great)
            # 01's order is 2, 3, 4, 8, 10.
            self.refused(3, 0, pattern.span, 3601 * b"a", found, great, great, great)
            self.refused(4, 1, pattern.span, b"a ", found, great, great, great)
            self.refused(8, 0, pattern.span, b"a", found, great, great, great)
            self.refused(8, 0, pattern.span, b"aa", found, bits, great, great)
        pattern.text = b""
        self.refused(2, 0, pattern.span, b" ", found, 2**32, 2**32, 2**32)

    def test_negative_numbers_are_no_counts(self):
        pattern = Pattern(P1)
        found, bits = code("001")
        for call in [pattern.flatten, pattern.canonicalize, pattern.totals]:
            self.assertRaises(ValueError, call, found, -1)
        self.assertRaises(ValueError, pattern.total, found, bits, -1)
        for numbers in [(-1, 0, 0), (bits, -1, 0), (bits, 0, -1), (bits, 0, -(2**32))]:
            self.assertRaises(ValueError, pattern.span, b"a", found, *numbers)
        self.assertRaises(TypeError, pattern.flatten, found, 3.0)

    def test_a_refusal_is_copied_and_pickled(self):
        words = Refused(1, 2, "pattern, line 2: it is empty")
        for refused in [Refused(4, 17), Refused(15, 0), Refused(99, 0), words, Refused(5, 0, "", 3, 4), Refused(5, 0, "here", 0, 0)]:
            for again in [copy.copy(refused), copy.deepcopy(refused), pickle.loads(pickle.dumps(refused))]:
                self.assertEqual((type(again), again.number, again.value), (Refused, refused.number, refused.value))
                self.assertEqual(str(again), str(refused))
                self.assertEqual((again.words, again.reach, again.resume), (refused.words, refused.reach, refused.resume))

    def test_a_refusal_comes_back_from_a_process(self):
        fresh = multiprocessing.get_context("spawn")
        with concurrent.futures.ProcessPoolExecutor(1, fresh) as pool:
            good, bad = pool.submit(read, b"3W2"), pool.submit(read, b"3W")
            self.assertEqual(good.result(60), read(b"3W2"))
            self.refused(5, 0, bad.result, 60)
            self.assertEqual((bad.exception().reach, bad.exception().resume), (2, 2))
            self.assertIn("the tape stops too early, after 3W", str(bad.exception()))

    def test_each_cause_has_words(self):
        self.assertEqual(list(CAUSES), [*range(1, 16), 20])
        self.assertEqual(str(Refused(4, 17)), "the byte at position 17 of the tape is no letter")
        self.assertIn("number 99 with value 0", str(Refused(99, 0)))
        # The same words as those of the Rust wrapper, which has {line}, {position} or {needed} where this one has {value}.
        rust = (REPOSITORY / "bindings/rust/src/refusal.rs").read_text()
        found = re.findall(r'(?:write!\(\s*f,|: &str =)\s+"([^"]*)"', rust)
        there = {re.sub(r"\{\w+\}", "{value}", words) for words in found}
        self.assertLessEqual({*CAUSES.values(), PAGE_BYTE}, there)

    def test_what_is_wrong_with_a_line(self):
        """Each fault of a table that tapelist and Rust are tested by, too."""
        rows = (REPOSITORY / "tests/tapelist/faults.tsv").read_text().splitlines()
        self.assertGreater(len(rows), 100)
        for name, number, value, words, text in (row.split("\t") for row in rows):
            with self.subTest(name), self.assertRaises(Refused) as caught:
                Pattern(text.encode().decode("unicode_escape").encode("latin-1"))
            why = caught.exception
            self.assertEqual((why.number, why.value, str(why)), (int(number), int(value), f"pattern, {words}"), name)
            self.assertEqual(why.cause, str(Refused(int(number), int(value))))
        # Whatever the text, there are words.
        for text in [b"0\tE\t-\n" + 10**6 * b"\t", 10**6 * b"\n", 10**6 * b"9", bytes(range(256)), b"\0", b"\xff"]:
            with self.assertRaises(Refused) as caught:
                Pattern(text)
            self.assertRegex(str(caught.exception), r"\Apattern, line [01]: .{5,120}\Z")


class Breaks(Case):
    def test_where_a_tape_breaks(self):
        """Each row of a table that tapelist and Rust are tested by, too."""
        rows = (REPOSITORY / "tests/tapelist/breaks.tsv").read_text().splitlines()
        self.assertGreater(len(rows), 20)
        for row in rows:
            name, reach, resume, words, text, tape = row.split("\t")
            tape, text = (field.encode().decode("unicode_escape").encode("latin-1") for field in (tape, text))
            pattern, due = Pattern(text), Located(int(reach), int(resume))
            for given in [tape, bytearray(tape), memoryview(tape)]:
                self.assertEqual(pattern.locate(given), due, name)
                with self.subTest(name), self.assertRaises(Refused) as caught:
                    pattern.parse(given)
            why = caught.exception
            self.assertEqual((why.number, why.value, why.reach, why.resume), (5, 0, *due), name)
            self.assertEqual(str(why), f"no parse of the pattern spells the tape: {words}")
            self.assertEqual(why.cause, "no parse of the pattern spells the tape")

    def test_tapes_that_can_be_read(self):
        pattern = Pattern(LISTING)
        for tape in [b"", b"3", b"3W2", MAX_LETTERS * b"7"]:
            self.assertEqual(pattern.locate(tape), (len(tape), 0))
        self.assertEqual(repr(pattern.locate(b"3W2")), "Located(reach=3, resume=0)")

    def test_the_order_of_checks(self):
        pattern = Pattern(LISTING)
        self.refused(3, 0, pattern.locate, 3601 * b" ")
        self.refused(4, 2, pattern.locate, b"xx  ")
        self.assertRaises(TypeError, pattern.locate, "3W2")
        pattern.text = b""
        self.refused(2, 0, pattern.locate, 3601 * b" ")

    def test_other_refusals_have_no_position(self):
        for call, given in [(Pattern, b""), (Pattern(P1).parse, b"a b"), (Desk(Pattern(P1)).put, b"")]:
            with self.assertRaises(Refused) as caught:
                call(given)
            self.assertEqual((caught.exception.reach, caught.exception.resume), (None, None))
        self.assertEqual((Refused(5, 0).reach, str(Refused(5, 0))), (None, CAUSES[5]))


class Package(unittest.TestCase):
    def test_version(self):
        header = (REPOSITORY / "include/wumbyra.h").read_text()
        part = [int(re.search(rf"#define WUMBYRA_VERSION_{name} (\d+)\n", header)[1]) for name in ("MAJOR", "MINOR", "PATCH")]
        self.assertEqual(version(), part[0] * 10000 + part[1] * 100 + part[2])
        self.assertEqual(wumbyra.__version__, ".".join(map(str, part)))
        for name in ["ACCOUNTS", "MAX_LETTERS", "MAX_CODE_BYTES", "MAX_PAGES", "MAX_PAGE_LETTERS"]:
            self.assertEqual(getattr(wumbyra, name), int(re.search(rf"#define WUMBYRA_{name} (\d+)\n", header)[1]))

    def test_every_function_has_type_hints(self):
        methods = (call for kind in (Pattern, Desk) for _, call in inspect.getmembers(kind, inspect.isfunction))
        functions = [version, Refused.__init__, *methods]
        for function in functions:
            parameters = set(inspect.signature(function).parameters) - {"self"}
            self.assertEqual(set(typing.get_type_hints(function)), parameters | {"return"}, function)
        for named in wumbyra.__all__:
            self.assertTrue(hasattr(wumbyra, named), named)


if __name__ == "__main__":
    unittest.main()
