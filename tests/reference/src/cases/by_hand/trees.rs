//! Tree faults, and form faults beside them.

use super::Hand;
use crate::patterns::LISTING;

pub fn trees(hand: &mut Hand) {
    hand.text("S x x", "0\tE\t-\n1\tS\t-\t0\t0\n", 2, 1);
    hand.text("A x x", "0\tE\t-\n1\tA\t-\t0\t0\n", 2, 1);
    hand.text(
        "S x x with x later unnamed by others",
        "0\tE\t-\n1\tE\t-\n2\tS\t-\t0\t0\n",
        2,
        2,
    );
    hand.text("K naming its own line", "0\tE\t-\n1\tK\t-\t1\n", 2, 1);
    hand.text("K on line 0", "0\tK\t-\t0\n", 2, 0);
    hand.text("S on line 0", "0\tS\t-\t0\t0\n", 2, 0);
    hand.text("K on line 0 naming 63", "0\tK\t-\t63\n", 2, 0);
    hand.text(
        "a part above its line, inside the text",
        "0\tK\t-\t1\n1\tE\t-\n",
        2,
        0,
    );
    hand.text(
        "a part at the last line",
        "0\tE\t-\n1\tS\t-\t0\t2\n2\tE\t-\n",
        2,
        1,
    );
    hand.text(
        "a part past the last line",
        "0\tE\t-\n1\tS\t-\t0\t3\n2\tE\t-\n",
        2,
        1,
    );
    hand.text(
        "named twice by two lines",
        "0\tE\t-\n1\tK\t-\t0\n2\tK\t-\t0\n",
        2,
        2,
    );
    hand.text(
        "named twice, later line S",
        "0\tE\t-\n1\tK\t-\t0\n2\tS\t-\t1\t0\n",
        2,
        2,
    );
    hand.text(
        "named twice with a line between",
        "0\tE\t-\n1\tK\t-\t0\n2\tE\t-\n3\tS\t-\t2\t0\n",
        2,
        3,
    );
    hand.text(
        "two naming faults",
        "0\tE\t-\n1\tK\t-\t0\n2\tK\t-\t0\n3\tK\t-\t0\n",
        2,
        2,
    );
    hand.text("two leaves", "0\tE\t-\n1\tE\t-\n", 2, 0);
    hand.text("three leaves", "0\tE\t-\n1\tE\t-\n2\tE\t-\n", 2, 0);
    hand.text("place 1 unnamed", "0\tE\t-\n1\tE\t-\n2\tK\t-\t0\n", 2, 1);
    hand.text("place 0 unnamed", "0\tE\t-\n1\tE\t-\n2\tK\t-\t1\n", 2, 0);
    hand.text(
        "places 0 and 2 unnamed",
        "0\tE\t-\n1\tE\t-\n2\tE\t-\n3\tK\t-\t1\n",
        2,
        0,
    );
    hand.text(
        "place 2 unnamed, root a leaf",
        "0\tE\t-\n1\tE\t-\n2\tS\t-\t0\t1\n3\tE\t-\n",
        2,
        2,
    );
    hand.text(
        "unnamed on line 0, wrongly named on line 3",
        "0\tE\t-\n1\tE\t-\n2\tK\t-\t1\n3\tK\t-\t1\n",
        2,
        3,
    );
    hand.text(
        "unnamed on line 0, not below on line 3",
        "0\tE\t-\n1\tE\t-\n2\tK\t-\t1\n3\tS\t-\t2\t3\n",
        2,
        3,
    );
    hand.text(
        "twice named on line 2, not below on line 1",
        "0\tE\t-\n1\tS\t-\t0\t5\n2\tK\t-\t0\n",
        2,
        1,
    );
    hand.text(
        "twice named on line 2, not below on line 3",
        "0\tE\t-\n1\tK\t-\t0\n2\tK\t-\t0\n3\tK\t-\t3\n",
        2,
        2,
    );
}

pub fn mixed(hand: &mut Hand) {
    hand.text(
        "form fault after a tree fault",
        "0\tK\t-\t0\n1\tE\t0\n",
        1,
        1,
    );
    hand.text(
        "form fault on the last line after a naming fault",
        "0\tE\t-\n1\tK\t-\t0\n2\tK\t-\t0\n3\tL\t-\t\n",
        1,
        3,
    );
    hand.text(
        "form fault after an unnamed place",
        "0\tE\t-\n1\tE\t-\n2\tR\t-\tb\ta\n",
        1,
        2,
    );
    hand.text(
        "wrong own place after a tree fault",
        "0\tK\t-\t9\n2\tE\t-\n",
        1,
        1,
    );
    hand.text(
        "leading zero after a tree fault",
        "0\tK\t-\t9\n1\tK\t-\t00\n",
        1,
        1,
    );
    hand.text("two form faults", "0\tE\t-\n1\tQ\t-\n2\tE\t0\n", 1, 1);
    hand.text(
        "form and naming fault on one line",
        "0\tE\t-\n1\tK\t0\t1\n",
        1,
        1,
    );
    hand.text(
        "one part past 63, one not below",
        "0\tE\t-\n1\tS\t-\t1\t64\n",
        1,
        1,
    );
    hand.text("a whole text twice", &LISTING.repeat(2), 1, 6);
    hand.text(
        "text of P1 with its lines backwards",
        "3\tK\t-\t2\n2\tA\t-\t0\t1\n1\tE\t-\n0\tL\t-\ta\n",
        1,
        0,
    );
}
