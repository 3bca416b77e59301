"""The worked example, a term, a page desk, where a tape breaks, and a refusal that comes back from another process, by a program outside the tree."""

import datetime
import multiprocessing
from concurrent.futures import ProcessPoolExecutor

from wumbyra import Desk, Pattern, Refused

PATTERN = b"0\tR\t-\t0\t9\n1\tL\t-\tW\n2\tS\t9\t1\t0\n3\tR\t1\t0\t9\n4\tA\t-\t2\t3\n5\tK\t-\t4\n"
DAYS = b"0\tR\t1\t0\t9\n1\tL\t-\tD\n2\tA\t-\t0\t1\n3\tK\t-\t2\n"
SECONDS = 30  # a refusal that cannot be pickled would be waited for without end


def totals(tape):
    pattern = Pattern(PATTERN)
    code, bits, _ = pattern.parse(tape)
    return pattern.totals(code, bits)


def refused(result):
    try:
        return result(timeout=SECONDS)
    except Refused as why:
        return why.number, why.value


def pools():
    """What both kinds of pool answer for a tape and for one that is refused."""
    with ProcessPoolExecutor(2) as pool:
        yield pool.submit(totals, b"3W2").result(timeout=SECONDS), refused(pool.submit(totals, b"3 2").result)
    with multiprocessing.Pool(2) as pool:
        yield pool.apply_async(totals, (b"3W2",)).get(timeout=SECONDS), refused(pool.apply_async(totals, (b"3 2",)).get)


def main():
    pattern = Pattern(PATTERN)
    code, bits, _ = pattern.parse(b"3W2")
    print("tape", 3, bits, code.hex(), sep="\t")
    litres = pattern.totals(code, bits)
    for account, amount in enumerate(litres):
        if amount > 0:
            print("account", account, amount, sep="\t")
    print("span", *pattern.span(b"3W2", code, bits, 2, 0), sep="\t")
    days, leap_day = Pattern(DAYS), datetime.date(2024, 2, 29)
    code, bits, _ = days.parse(b"1D2D4")
    print("term", leap_day.strftime("%Y%m%d"), days.term_totals(code, bits, (2024, 2, 28), leap_day, leap_day)[1], sep="\t")
    desk = Desk(pattern)
    for page in b"2", b"W", b"3":
        desk.put(page)
    print("desk", len(desk.pages), desk.letters.decode(), sep="\t")
    print("locate", *pattern.locate(b"3Wx2"), sep="\t")
    for answers in pools():
        assert answers == (litres, (4, 1)), answers


if __name__ == "__main__":
    main()
