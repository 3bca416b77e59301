"""Pattern texts for the cases of tapelist, as bytes. In a row a character stands for the byte of its number."""

LIMIT = 64


def text(*rows):
    """A text of lines, each with its number in front: `text("E -")` is the pattern of nothing."""
    # By the space alone: to Python some bytes of the gap between the letters are spaces, too.
    lines = ["\t".join([str(place), *row.split(" ")]) for place, row in enumerate(rows)]
    return "".join(line + "\n" for line in lines).encode("latin-1")


# The pattern of 01's section "A whole listing".
WORKED = text("R - 0 9", "L - W", "S 9 1 0", "R 1 0 9", "A - 2 3", "K - 4")

NOTHING = text("E -")

# Any letters but those of the hot side, litres on account 7.
ANY = text("R 7 ! ~", "K - 0")

# Any letters, by a range across the gap; those of the hot side alone; and the two that the gap lies between.
EVERY = text("R 7 ! \xfe", "K - 0")
HOT = text("R 7 \xa1 \xfe", "K - 0")
TWO = text("R 7 ~ \xa1", "K - 0")

# A combined meter: a digit is cold water, and byte 200 before a digit makes it hot water.
COMBINED = text("R 1 0 9", "L - \xc8", "R 2 0 9", "S - 1 2", "A - 0 3", "K - 4")

# Any letters but those of the hot side, no account.
UNBILLED = text("R - ! ~", "K - 0")

# Digit d on account d where d is above 0, and 0 on none.
EACH_ACCOUNT = text(
    "L - 0", *(f"L {d} {d}" for d in range(1, 10)), "A - 0 1", *(f"A - {9 + d} {d + 1}" for d in range(1, 9)), "K - 18"
)

# The node's own account goes before that of the nodes above it, where that is not 9.
INNERMOST = text("R 2 0 9", "L - x", "S 3 1 0", "R - 0 9", "A - 2 3", "K 5 4")

# The pattern of 01's section "A whole listing" with an account of its own for the digit behind `W`, under account 9.
STALE = text("R 4 0 9", "L - W", "S 9 1 0", "R 1 0 9", "A - 2 3", "K - 4")

# Account 9 between two others, and behind it a digit of the outer one.
STALE_BETWEEN = text("R 4 0 9", "K 9 0", "L - x", "R - 0 9", "S - 2 3", "S 3 1 4")

# Account 9 beside a digit and not above it.
STALE_BESIDE = text("E 9", "R 3 0 9", "S - 0 1", "K - 2")

# Accounts of one, two and three digits, the greatest first, and a digit without one.
GREAT_ACCOUNTS = text("L 200 1", "L 100 2", "S - 0 1", "L 20 3", "S - 2 3", "L 9 4", "S - 4 5", "L - 5", "S - 6 7")

# Accounts that are written with a 9 above others, and 9 above account 200: only that one takes litres from an account further in.
NINES = text("R 3 0 9", "K 99 0", "R - 0 9", "K 90 2", "R 200 0 9", "K 9 4", "L - x", "L - y", "S - 1 6", "S - 3 7", "S - 8 9", "S 109 10 5")

# 32 digits, one after the other, on accounts 169 to 200.
MANY_ACCOUNTS = text("L 169 1", *(row for n in range(31) for row in (f"L {170 + n} 1", f"S - {2 * n} {2 * n + 1}")))

# The pattern of 01's section "A whole listing" with a lazy star.
LAZY_WORKED = text("R - 0 9", "L - W", "S 9 1 0", "R 1 0 9", "A - 2 3", "Z - 4")

# A star over a lazy star over one letter.
LAZY_IN_STAR = text("L - a", "Z - 0", "K - 1")

# One letter or two, under a lazy star.
ONE_OR_TWO = text("L - a", "L - a", "L - a", "S - 1 2", "A - 0 3", "Z - 4")

# 63 stars, one in the other: greedy, lazy, and in turn.
STARS = text("R 1 0 9", *(f"K - {place}" for place in range(LIMIT - 1)))
LAZY_STARS = text("R 1 0 9", *(f"Z - {place}" for place in range(LIMIT - 1)))
BOTH_STARS = text("R 1 0 9", *(f"{'KZ'[place % 2]} - {place}" for place in range(LIMIT - 1)))


def longest():
    """64 lines, each as long as its kind and place allow: 32 ranges, 31 sequences and a star, with accounts of three digits."""
    rows = [f"R {100 + place} ! ~" for place in range(32)]
    left = list(range(32))
    while len(left) > 1:
        left.append(len(rows))
        rows.append(f"S 199 {left.pop(0)} {left.pop(0)}")
    return text(*rows, f"K 200 {left[0]}")


LONGEST = longest()

# A star over 32 letters, of which `_` is the last to be tried: 32 bits for each.
ALTERNATIVES = text(
    *(f"L {1 + place % 9} {chr(64 + place)}" for place in range(32)),
    "A - 30 31",
    *(f"A - {29 - place} {32 + place}" for place in range(30)),
    "K - 62",
)

# 64 lines of good form, all as long as a line can be, and no tree.
LONGEST_FORM = text(*("S 200 63 63" for _ in range(LIMIT)))

# 65 lines, the first 64 of them a pattern.
LINES_65 = STARS + b"64\tK\t-\t63\n"
