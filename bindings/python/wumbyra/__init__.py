"""The verified reader of water meter tapes (ctypes, standard library only).

    from wumbyra import Pattern, Refused

    pattern = Pattern(b"0\\tL\\t1\\t7\\n1\\tK\\t-\\t0\\n")
    parsed = pattern.parse(b"77")
    pattern.totals(parsed)[1]                   # 14, the litres of account 1

A refusal is raised as `Refused`, with the number and the value of docs/REFERENCE.md; number 5 of `parse` says where the tape breaks. Bytes
may be `bytes`, `bytearray`, `memoryview` or an array of bytes. A `str` is a TypeError, and so is an array of anything wider than a byte.

A call that takes a code takes its bytes and its bit count, `pattern.totals(code, bits)`, or in place of both what `parse` or
`canonicalize` gives, `pattern.totals(parsed)`.

Bit counts, nodes, visits and accounts are numbers from 0 on, of any size: one that has over 32 bits is refused as the library refuses
any that is too great (8 for a bit count, 10 for a node or visit; an account that there is not has 0 litres), and in the library's
order of checks. A negative number is no count at all: it is a ValueError, whatever else is handed over. `subpattern` makes its text
without the library: it raises an IndexError if the pattern has no such node.

A date is a `datetime.date`, a text as "2024-02-27", or a tuple or list of three numbers from 0 on, of any size: year, month and day. The
library has the days of the years 2000 to 2099 and refuses any other. A text of another form, or another count of numbers, is a
ValueError; anything else is a TypeError.
"""

from __future__ import annotations

from array import array
from typing import List, NamedTuple, Tuple, overload

from ._arguments import BytesLike, Code, Coded, Date, Parsed, Words, takes_code, to_bytes, to_count, to_date
from ._breaks import break_words
from ._faults import fault_words
from ._library import LIBRARY
from ._refused import CAUSES, PAGE_BYTE, Refused
from ._subpattern import subpattern_text

__version__ = "1.7.0"
__all__ = [
    "ACCOUNTS",
    "CAUSES",
    "MAX_CODE_BYTES",
    "MAX_LETTERS",
    "MAX_PAGES",
    "MAX_PAGE_LETTERS",
    "Code",
    "Desk",
    "Located",
    "Parsed",
    "Pattern",
    "Refused",
    "Span",
    "version",
]

MAX_LETTERS = 3600
MAX_CODE_BYTES = 65536
# Accounts, 0 to 200: as many totals as `totals` and `term_totals` give.
ACCOUNTS = 201
# Pages that a desk holds, and letters of a page.
MAX_PAGES = 30
MAX_PAGE_LETTERS = 120


class Span(NamedTuple):
    """Where a piece of the tape starts, and how many letters it has."""

    start: int
    length: int


class Located(NamedTuple):
    """Where a tape breaks.

    `reach` is the greatest number of letters from the tape's start that begin some tape of the pattern. If it is below the tape's length,
    the letter at this position is the first that cannot follow; otherwise the tape can be read, or stops too early. `resume` is the
    least position from which on the letters end some tape of the pattern; the tape's length if none of them do.
    """

    reach: int
    resume: int


def version() -> int:
    """The version of the library that is loaded: major * 10000 + minor * 100 + patch."""
    return int(LIBRARY.wumbyra_version())


def _value(answer: int) -> int:
    number, value = answer >> 32, answer & 0xFFFFFFFF
    if number:
        raise Refused(number, value)
    return value


def _cells(kind: str, count: int) -> Words:
    """An array of zeros to lend. Its `buffer_info` is what a call takes: the address and the number of cells."""
    cells = array(kind)
    cells.frombytes(bytes(count * cells.itemsize))
    return cells


def _front(cells: Words, bits: int) -> bytes:
    return cells[: (bits + 7) // 8].tobytes()


class Pattern:
    """A pattern text that loads; `lines` is the number of its nodes. Objects can be shared by threads and sent to processes."""

    text: bytes
    lines: int

    def __init__(self, text: BytesLike) -> None:
        self.text = to_bytes(text)
        try:
            self.lines = _value(LIBRARY.wumbyra_load(self.text, len(self.text)))
        except Refused as why:
            words = fault_words(self.text, why.number, why.value)
            raise Refused(why.number, why.value, f"pattern, {words}") from None

    def __repr__(self) -> str:
        return f"Pattern({self.text!r})"

    def __eq__(self, other: object) -> bool:
        """Whether both have the same text."""
        if not isinstance(other, Pattern):
            return NotImplemented
        return self.text == other.text

    def __hash__(self) -> int:
        return hash((Pattern, self.text))

    def parse(self, tape: BytesLike) -> Parsed:
        """Reads a tape: the code of its preferred parse, and the state sets.

        Refused with 3, 4 or 5. A refusal with 5 has `reach` and `resume`, and says where the tape breaks.
        """
        tape = to_bytes(tape)
        letters = min(len(tape), MAX_LETTERS)  # a longer tape is refused before a buffer is looked at
        words = _cells("Q", 2 * (letters + 1))
        code = _cells("B", 17 * letters + 8)
        try:
            bits = _value(
                LIBRARY.wumbyra_parse(self.text, len(self.text), tape, len(tape), *words.buffer_info(), *code.buffer_info())
            )
        except Refused as why:
            if why.number != 5:
                raise
            located = self.locate(tape)
            raise Refused(5, why.value, f"{why.cause}: {break_words(tape, *located)}", *located) from None
        return Parsed(_front(code, bits), bits, words)

    def locate(self, tape: BytesLike) -> Located:
        """Where a tape breaks: how many of its first letters begin some tape of the pattern, and from which position on they end one.

            pattern = Pattern(b"0\\tR\\t1\\t0\\t9\\n1\\tK\\t-\\t0\\n")
            pattern.locate(b"35xx2")            # Located(reach=2, resume=4): the first x cannot follow, and the 2 can be read

        Of a tape that can be read they are its length and 0. A tape that is refused with 5 may have the same, so ask `parse` whether it
        can be read. Refused with 3 or 4.
        """
        tape = to_bytes(tape)
        value = _value(LIBRARY.wumbyra_locate(self.text, len(self.text), tape, len(tape)))
        return Located(value >> 16, value & 0xFFFF)

    @overload
    def flatten(self, code: Coded) -> bytes: ...

    @overload
    def flatten(self, code: BytesLike, bits: int) -> bytes: ...

    @takes_code
    def flatten(self, code: BytesLike, bits: int) -> bytes:
        """The letters that a code spells. Refused with 8 or 3."""
        tape = _cells("B", MAX_LETTERS)
        letters = _value(LIBRARY.wumbyra_flatten(*self._coded(code, bits), *tape.buffer_info()))
        return tape[:letters].tobytes()

    @overload
    def canonicalize(self, code: Coded) -> Code: ...

    @overload
    def canonicalize(self, code: BytesLike, bits: int) -> Code: ...

    @takes_code
    def canonicalize(self, code: BytesLike, bits: int) -> Code:
        """The canonical code of what a code spells: equal for two codes exactly if they spell the same tape. Refused with 8 or 3."""
        tape = _cells("B", MAX_LETTERS)
        words = _cells("Q", 2 * (MAX_LETTERS + 1))
        canonical = _cells("B", 17 * MAX_LETTERS + 8)
        lent = *tape.buffer_info(), *words.buffer_info(), *canonical.buffer_info()
        count = _value(LIBRARY.wumbyra_canonicalize(*self._coded(code, bits), *lent))
        return Code(_front(canonical, count), count)

    @overload
    def span(self, tape: BytesLike, code: Coded, node: int, visit: int) -> Span: ...

    @overload
    def span(self, tape: BytesLike, code: BytesLike, bits: int, node: int, visit: int) -> Span: ...

    @takes_code
    def span(self, tape: BytesLike, code: BytesLike, bits: int, node: int, visit: int) -> Span:
        """Where the piece of the tape lies that a visit of a node covers, visits counted from 0. Refused with 3, 4, 8 or 10."""
        tape, code = to_bytes(tape), to_bytes(code)
        counts = to_count(bits, "a bit count"), to_count(node, "a node"), to_count(visit, "a visit")
        value = _value(
            LIBRARY.wumbyra_span(self.text, len(self.text), tape, len(tape), code, len(code), *counts)
        )
        return Span(value >> 16, value & 0xFFFF)

    @overload
    def piece(self, tape: BytesLike, code: Coded, node: int, visit: int) -> bytes: ...

    @overload
    def piece(self, tape: BytesLike, code: BytesLike, bits: int, node: int, visit: int) -> bytes: ...

    @takes_code
    def piece(self, tape: BytesLike, code: BytesLike, bits: int, node: int, visit: int) -> bytes:
        """The piece itself. Refused as `span` is."""
        start, length = self.span(tape, code, bits, node, visit)
        return to_bytes(tape)[start : start + length]

    def subpattern(self, node: int) -> Pattern:
        """The pattern made of a node and all below it, places counted afresh. Lines keep their order, so the node is the last line.

        A piece stands by itself. Read the piece that a visit of the node covers by this pattern, and `parse` gives the same bits that it
        writes during the visit when it reads the whole tape.

            piece = pattern.piece(tape, pattern.parse(tape), node, visit)
            pattern.subpattern(node).parse(piece)

        Accounts go along, but those above the node are cut off. So the totals of a piece may differ from its share of the whole: digits of
        account 3 under a `K` of account 9 total to account 9 in the whole, and to account 3 in the piece. Bill from the whole.

        Raises an IndexError if the pattern has no such node.
        """
        node = to_count(node, "a node")
        if node >= self.lines:
            raise IndexError(f"the nodes of this pattern are 0 to {self.lines - 1}, and {node} is above")
        return Pattern(subpattern_text(self.text, node))

    @overload
    def total(self, code: Coded, account: int) -> int: ...

    @overload
    def total(self, code: BytesLike, bits: int, account: int) -> int: ...

    @takes_code
    def total(self, code: BytesLike, bits: int, account: int) -> int:
        """The litres of an account, 0 for one above 200. Refused with 8 or 3."""
        return _value(LIBRARY.wumbyra_total(*self._coded(code, bits), to_count(account, "an account")))

    @overload
    def totals(self, code: Coded) -> List[int]: ...

    @overload
    def totals(self, code: BytesLike, bits: int) -> List[int]: ...

    @takes_code
    def totals(self, code: BytesLike, bits: int) -> List[int]:
        """The litres of accounts 0 to 200, by one pass over the code. Refused with 8 or 3."""
        litres = _cells("I", ACCOUNTS)
        _value(LIBRARY.wumbyra_totals(*self._coded(code, bits), *litres.buffer_info()))
        return litres.tolist()

    @overload
    def term_totals(self, code: Coded, start: Date, first: Date, last: Date) -> List[int]: ...

    @overload
    def term_totals(self, code: BytesLike, bits: int, start: Date, first: Date, last: Date) -> List[int]: ...

    @takes_code
    def term_totals(self, code: BytesLike, bits: int, start: Date, first: Date, last: Date) -> List[int]:
        """The litres of accounts 0 to 200 within a term: those of the letters that are dated from `first` to `last`, both included.

        `start` is the date of the tape's first letter, and each `D` ends a day. Refused with 8, 3, 11 or 12.
        """
        litres = _cells("I", ACCOUNTS)
        dates = to_date(start), to_date(first), to_date(last)
        _value(LIBRARY.wumbyra_term_totals(*self._coded(code, bits), *dates, *litres.buffer_info()))
        return litres.tolist()

    def _coded(self, code: BytesLike, bits: int) -> Tuple[bytes, int, bytes, int, int]:
        """The arguments that all calls on a code begin with."""
        code = to_bytes(code)
        return self.text, len(self.text), code, len(code), to_count(bits, "a bit count")


class Desk:
    """A page desk: a tape that is gathered in pages which arrive newest first.

        desk = Desk(pattern)
        desk.put(b"52")                         # 2, the letters held then; the latest letters come first
        desk.put(b"99")                         # 4
        desk.withdraw()                         # 2, a page with a bad radio check is taken back
        desk.put(b"3")                          # 3
        pattern.parse(desk.letters)             # of b"352"

    It has a pattern and buffers of its own, so that every buffer suffices and the words are always those of the letters held. A desk
    is changed by its calls: threads that share one take turns.
    """

    pattern: Pattern

    def __init__(self, pattern: Pattern) -> None:
        if not isinstance(pattern, Pattern):
            raise TypeError(f"a desk is opened with a Pattern, and this is of type {type(pattern).__name__}")
        self.pattern = pattern
        self._desk = _cells("B", 1 + MAX_PAGES)
        self._letters = _cells("B", MAX_LETTERS)
        self._words = _cells("Q", 2 * (MAX_LETTERS + 1))
        self.open()

    def __repr__(self) -> str:
        return f"<Desk of {self._desk[0]} pages, {self._held} letters>"

    def open(self) -> None:
        """Opens it again: it holds no page then."""
        _value(LIBRARY.wumbyra_desk_open(*self._lent(), *self._words.buffer_info()))
        self._held = 0

    def put(self, page: BytesLike) -> int:
        """Puts a page before the letters held, and gives how many letters are held then.

        Refused with 13, 14 or 4, whose value is a position in the page.
        """
        page = to_bytes(page)
        lent = page, len(page), *self._letters.buffer_info(), *self._words.buffer_info()
        try:
            self._held = _value(LIBRARY.wumbyra_desk_put(*self._lent(), *lent))
        except Refused as why:
            if why.number != 4:
                raise
            raise Refused(why.number, why.value, PAGE_BYTE.format(value=why.value)) from None
        return self._held

    def withdraw(self) -> int:
        """Withdraws the last page put, and gives how many letters are held then. Refused with 15."""
        self._held = _value(LIBRARY.wumbyra_desk_withdraw(*self._lent(), *self._letters.buffer_info()))
        return self._held

    @property
    def letters(self) -> bytes:
        """The letters held, the last page put first: a tape."""
        return self._letters[MAX_LETTERS - self._held :].tobytes()

    @property
    def pages(self) -> List[bytes]:
        """The pages held, the last put first."""
        pages: List[bytes] = []
        end = self._held
        letters = self.letters
        for length in self._desk[1 : 1 + self._desk[0]]:
            pages.insert(0, letters[end - length : end])
            end -= length
        return pages

    @property
    def words(self) -> Words:
        """The words of the letters held, counted from the tape's end: words[2 * j + b] is for the last j letters."""
        return self._words[: 2 * (self._held + 1)]

    def _lent(self) -> Tuple[bytes, int, int, int]:
        """The arguments that all calls on a desk begin with."""
        return self.pattern.text, len(self.pattern.text), *self._desk.buffer_info()
