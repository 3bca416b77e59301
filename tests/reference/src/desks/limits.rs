//! The limits: letters of a page, pages of a desk, cells and words lent, lengths
//! and counts that a caller wrote, and every byte in a page and in a held cell.

use super::{Case, Hand, ALL_LETTERS};
use crate::hot::many;
use crate::patterns::{P1, P3};
use crate::services::desk::{Desk, MOST_PAGES};
use crate::table::is_letter;

pub fn cases() -> Vec<Case> {
    let mut cases = vec![
        page_letters(),
        cells_lent(),
        few_words(),
        thirty_pages(),
        counts(),
        lengths_behind(),
        every_byte_put(),
        bad_cells(),
        cells_past(),
    ];
    cases.extend([0, 64, 128, 192].map(bytes_held));
    cases.extend([0, 1, 14, 28, 29].map(held_lengths));
    cases
}

/// 1 to 120; 256 and 257 are no other numbers in a byte.
fn page_letters() -> Case {
    let mut hand = Hand::opened("page letters: around the limits", P1);
    for letters in [0, 1, 2, 119, 120, 121, 122, 255, 256, 257, 376, 1_800] {
        hand.put(vec![b'a'; letters]);
        match letters {
            1..=120 => {
                hand.holds(letters);
                hand.withdraw();
                hand.holds(0);
            }
            _ => hand.answers(13, 0),
        }
    }
    hand.done()
}

fn cells_lent() -> Case {
    let mut hand = Hand::opened("cells: around 3,600", P3);
    for cells in [0, 1, 120, 3_598, 3_599, 3_600, 3_601, ALL_LETTERS] {
        hand.cells = cells;
        let enough = cells >= 3_600;
        hand.put("ab");
        match enough {
            true => hand.holds(2),
            false => hand.answers(9, 3_600),
        }
        hand.withdraw();
        match enough {
            true => hand.holds(0),
            false => hand.answers(9, 3_600),
        }
    }
    hand.done()
}

/// Words just enough and one short, for desks of one letter to many; withdrawing
/// needs none.
fn few_words() -> Case {
    let mut hand = Hand::opened("words: just enough and one short", P3);
    let mut held = 0;
    for letters in [1, 1, 3, 15, 120, 59] {
        let page: Vec<u8> = b"abbab".iter().copied().cycle().take(letters).collect();
        let needed = 2 * (held + letters + 1);
        for words in [0, 2, needed - 2, needed - 1] {
            hand.words = words;
            hand.put(&page);
            hand.answers(6, needed as u64);
        }
        hand.words = needed;
        hand.put(&page);
        held += letters;
        hand.holds(held);
    }
    hand.done()
}

/// 30 pages are held, and a 31st is not.
fn thirty_pages() -> Case {
    let mut hand = Hand::opened("pages: 30 and a 31st", P3);
    for page in 1..=30 {
        hand.put(["a", "b"][page % 2]);
        hand.holds(page);
    }
    for page in [&b"a"[..], &[b'b'; 120], b" "] {
        hand.put(page);
        hand.answers(14, 0);
    }
    for page in [&b""[..], &[b'b'; 121]] {
        hand.put(page);
        hand.answers(13, 0);
    }
    hand.withdraw();
    hand.holds(29);
    hand.put([b'b'; 120]);
    hand.holds(149);
    hand.put("a");
    hand.answers(14, 0);
    hand.withdraw();
    hand.holds(29);
    hand.done()
}

/// Any count with 30 good lengths.
fn counts() -> Case {
    let mut hand = Hand::new("counts: 0 to 255", P1);
    for count in [0, 1, 2, 29, 30, 31, 32, 127, 128, 254, 255] {
        let desk = Desk {
            count,
            lengths: [2; MOST_PAGES],
        };
        hand.desk(desk, [b'a'; 62], 3_538);
        hand.put("a");
        match count {
            0..=29 => hand.holds(2 * usize::from(count) + 1),
            30 => hand.answers(14, 0),
            _ => hand.answers(13, 0),
        }
        hand.desk(desk, "", 0);
        hand.withdraw();
        match count {
            0 => hand.answers(15, 0),
            1..=30 => hand.holds(2 * usize::from(count) - 2),
            _ => hand.answers(13, 0),
        }
    }
    hand.done()
}

/// A length at one place of a desk with 30 pages, held and behind the count.
fn held_lengths(place: usize) -> Case {
    let mut hand = Hand::new(&format!("lengths: of page {place}"), P1);
    for length in [0, 1, 119, 120, 121, 122, 128, 255] {
        let mut desk = Desk::of_lengths(&[1; MOST_PAGES]);
        desk.lengths[place] = length;
        hand.desk(desk, [b'a'; 150], 3_450);
        hand.withdraw();
        let good = (1..=120).contains(&length);
        match (good, place) {
            (false, _) => hand.answers(13, 0),
            (true, 29) => hand.holds(29),
            (true, _) => hand.holds(28 + usize::from(length)),
        }
        // With so many pages the length is not looked at.
        desk.count = place as u8;
        hand.desk(desk, "", 0);
        hand.put("aa");
        hand.holds(place + 2);
    }
    hand.done()
}

/// Lengths behind the count are left as they are, but for that of the page put.
fn lengths_behind() -> Case {
    let mut hand = Hand::new("lengths: behind the count", P3);
    let desk = Desk {
        count: 0,
        lengths: [200; MOST_PAGES],
    };
    hand.desk(desk, "", 0);
    for (page, letters) in [("ab", 2), ("b", 3), ("aab", 6)] {
        hand.put(page);
        hand.holds(letters);
    }
    for letters in [3, 2, 0] {
        hand.withdraw();
        hand.holds(letters);
    }
    hand.put("a");
    hand.holds(1);
    hand.done()
}

/// Each byte as the second of a page, under a pattern of all letters.
fn every_byte_put() -> Case {
    let mut hand = Hand::opened("bytes: put", many(33, 254));
    for byte in 0..=255 {
        hand.put([b'a', byte, b'b']);
        if is_letter(u64::from(byte)) {
            hand.holds(3);
            hand.withdraw();
            hand.holds(0);
        } else {
            hand.answers(4, 1);
        }
    }
    hand.done()
}

/// Each of 64 bytes as a held cell.
fn bytes_held(first: u8) -> Case {
    let mut hand = Hand::new(&format!("bytes: held, from {first} on"), P1);
    for byte in first..=first + 63 {
        hand.hold(&[1, 2], [b'a', byte, b'a']);
        hand.withdraw();
        match is_letter(u64::from(byte)) {
            true => hand.holds(1),
            false => hand.answers(13, 0),
        }
    }
    hand.done()
}

/// A bad byte in each cell around the held ones; it matters in those alone.
fn bad_cells() -> Case {
    let mut hand = Hand::new("bad cells: in and around the held ones", P1);
    for at in 3_590..3_600 {
        hand.desk(Desk::of_lengths(&[2, 1, 3]), [b'a'; 12], 3_588);
        hand.desk(Desk::of_lengths(&[2, 1, 3]), " ", at);
        hand.put("a");
        match at < 3_594 {
            true => hand.holds(7),
            false => hand.answers(13, 0),
        }
        hand.desk(Desk::of_lengths(&[2, 1, 3]), "", 0);
        hand.withdraw();
        match at < 3_594 {
            true => hand.holds(3),
            false => hand.answers(13, 0),
        }
    }
    // The first of 3,600 cells that are all held.
    hand.desk(Desk::of_lengths(&[120; 30]), [b'a'; 3_600], 0);
    hand.withdraw();
    hand.holds(3_480);
    hand.desk(Desk::of_lengths(&[120; 30]), [255], 0);
    hand.withdraw();
    hand.answers(13, 0);
    hand.desk(Desk::of_lengths(&[120; 29]), "", 0);
    hand.withdraw();
    hand.holds(3_360);
    hand.done()
}

/// Cells behind the 3,600th are neither read nor written.
fn cells_past() -> Case {
    let mut hand = Hand::opened("cells: behind the 3,600th", P3);
    hand.cells = ALL_LETTERS;
    hand.desk(Desk::EMPTY, [0; 100], 3_600);
    for (page, letters) in [("b", 1), ("ab", 3)] {
        hand.put(page);
        hand.holds(letters);
    }
    hand.withdraw();
    hand.holds(1);
    hand.done()
}
