"""Why a call is refused."""

from __future__ import annotations

from typing import Optional

# The causes by number, in words; `value` is what the library returns beside the number.
CAUSES = {
    1: "line {value} of the pattern has not the form of a line",
    2: "the lines of the pattern are no tree (line {value})",
    3: "the tape has over 3,600 letters",
    4: "the byte at position {value} of the tape is no letter",
    5: "no parse of the pattern spells the tape",
    6: "{value} words are needed",
    7: "{value} code bytes are needed",
    8: "not a whole code of the pattern, or one of another tape",
    9: "{value} tape cells are needed",
    10: "there is no such node, or no such visit of it",
    11: "the start is no date, or a letter is dated past 31 December 2099",
    12: "the term's first or last date is none, or the last is before the first",
    13: "a page of no letter or over 120, or a desk that breaks its limits",
    14: "the desk holds 30 pages already",
    15: "the desk holds no page",
    20: "an account that has no cell has litres",
}
# Number 4 of a put: its position is one of the page.
PAGE_BYTE = "the byte at position {value} of the page is no letter"


class Refused(Exception):
    """A refusal: the cause's number and the value beside it. As text it is `words`, or else `cause`.

    `words` are those of this one refusal, if there are better ones than those of its cause: what is wrong with a line of a pattern,
    as the command tapelist says it, where a page has a byte that is no letter, and where a tape breaks.

    `reach` and `resume` say where a tape breaks that `parse` refused with 5, and are None for any other cause: the numbers that
    `Pattern.locate` gives.
    """

    number: int
    value: int
    words: str
    reach: Optional[int]
    resume: Optional[int]

    def __init__(
        self, number: int, value: int, words: str = "", reach: Optional[int] = None, resume: Optional[int] = None
    ) -> None:
        # An exception is pickled as its arguments, and made again from them: they have to be those of this function.
        located = [] if reach is None else [reach, resume]
        super().__init__(number, value, *([words] if words or located else []), *located)
        self.number = number
        self.value = value
        self.words = words
        self.reach = reach
        self.resume = resume

    def __str__(self) -> str:
        return self.words or self.cause

    @property
    def cause(self) -> str:
        """The cause in words, which are those of the Rust wrapper."""
        words = CAUSES.get(self.number, f"a cause that this package does not know, number {self.number} with value {{value}}")
        return words.format(value=self.value)
