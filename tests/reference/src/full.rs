//! Full tapes: 3,600 letters, one letter less and one more (02, Job 4). The
//! position behind the last letter is the greatest that there is, and a count
//! of bits may pass 65,535 all the same. Every code here was written down from
//! 01 and 02, bit by bit, and not found by reading.

use crate::services::MOST_LETTERS;
use crate::table::Star;

/// One letter less than the most, the most, and one letter more.
pub const SIZES: [usize; 3] = [MOST_LETTERS - 1, MOST_LETTERS, MOST_LETTERS + 1];

/// A pattern with a tape, a code that spells the tape, and its settled code.
pub struct Full {
    pub name: String,
    pub text: String,
    pub tape: Vec<u8>,
    pub code: Vec<bool>,
    pub settled: Vec<bool>,
}

impl Full {
    /// Bytes that the settled code fills.
    pub fn bytes(&self) -> usize {
        self.settled.len().div_ceil(8)
    }
}

pub fn all() -> Vec<Full> {
    let mut rows = Vec::new();
    for letters in SIZES {
        for star in [Star::Greedy, Star::Lazy] {
            rows.push(star_of_a_letter(star, letters));
            rows.push(star_of_a_range(star, letters));
            rows.push(long_sequence(star, letters));
        }
        rows.extend(nested(letters));
    }
    rows.extend(sixty_three());
    for star in [Star::Greedy, Star::Lazy] {
        // 18 bits a letter, 19 for some of them, and the bit that stops.
        rows.push(choices(star, MOST_LETTERS - 1, 752));
        rows.push(choices(star, MOST_LETTERS, 735));
        rows.push(choices(star, MOST_LETTERS, 736));
    }
    rows
}

const A: &str = "L\t-\ta";
/// Digits, so that totals have something to add.
const DIGITS: &str = "R\t3\t0\t9";

fn kind(star: Star) -> char {
    match star {
        Star::Greedy => 'K',
        Star::Lazy => 'Z',
    }
}

/// The kinds of stars from the outermost to the innermost.
fn kinds(stars: &[Star]) -> String {
    stars.iter().map(|&star| kind(star)).collect()
}

/// A leaf under stars, the outermost first.
fn under(stars: &[Star], leaf: &str) -> String {
    let mut text = format!("0\t{leaf}\n");
    for (below, &star) in stars.iter().rev().enumerate() {
        text += &format!("{}\t{}\t-\t{below}\n", below + 1, kind(star));
    }
    text
}

/// "`R` writes its letter in 8 bits, highest first."
fn eight(letter: u8) -> Vec<bool> {
    (0..8).rev().map(|power| letter >> power & 1 == 1).collect()
}

/// Digits, the same stretch of 21 again and again: in step with no byte of a
/// code.
fn digits(letters: usize) -> Vec<u8> {
    (0..letters)
        .map(|at| b'0' + (at % 7 + at % 3) as u8)
        .collect()
}

/// One round of every star but the innermost, which takes all letters, of
/// which each writes these bits. So reads `K`: it takes another round
/// wherever it can, the innermost first.
fn gathered(stars: &[Star], letters: &[Vec<bool>]) -> Vec<bool> {
    let (innermost, outer) = stars.split_last().expect("a star");
    let mut bits: Vec<bool> = outer.iter().map(|star| !star.stop_bit()).collect();
    for letter in letters {
        bits.push(!innermost.stop_bit());
        bits.extend(letter);
    }
    bits.extend(stars.iter().rev().map(|star| star.stop_bit()));
    bits
}

/// A round of the outermost star for each letter. So reads `Z`: once its
/// round has a letter it stops, down to the outermost.
fn spread(stars: &[Star], letters: &[Vec<bool>]) -> Vec<bool> {
    let (outermost, inner) = stars.split_first().expect("a star");
    let mut bits = Vec::new();
    for letter in letters {
        bits.extend(stars.iter().map(|star| !star.stop_bit()));
        bits.extend(letter);
        bits.extend(inner.iter().rev().map(|star| star.stop_bit()));
    }
    bits.push(outermost.stop_bit());
    bits
}

pub fn star_of_a_letter(star: Star, letters: usize) -> Full {
    let code = gathered(&[star], &vec![vec![]; letters]);
    Full {
        name: format!("{} of a letter, {letters} letters", kind(star)),
        text: under(&[star], A),
        tape: vec![b'a'; letters],
        settled: code.clone(),
        code,
    }
}

pub fn star_of_a_range(star: Star, letters: usize) -> Full {
    let tape = digits(letters);
    let bits: Vec<Vec<bool>> = tape.iter().map(|&digit| eight(digit)).collect();
    let code = gathered(&[star], &bits);
    Full {
        name: format!("{} of a range, {letters} letters", kind(star)),
        text: under(&[star], DIGITS),
        tape,
        settled: code.clone(),
        code,
    }
}

/// Three stars over a letter. The code handed in has a round of the outermost
/// for each letter, the settled one a round for all.
pub fn nested_greedy(letters: usize) -> Full {
    let (stars, none) = ([Star::Greedy; 3], vec![vec![]; letters]);
    let (code, settled) = (spread(&stars, &none), gathered(&stars, &none));
    three_stars(stars, letters, code, settled)
}

/// The same with lazy stars, and of both kinds.
fn nested(letters: usize) -> Vec<Full> {
    let (k, z) = (Star::Greedy, Star::Lazy);
    let none = vec![vec![]; letters];
    // The lazy star below stops behind each letter, since the greedy one can
    // take the rest; that one takes it all in its one round of the outermost.
    let mut mixed = vec![true];
    mixed.extend([false, true, false].repeat(letters));
    mixed.extend([true, false]);
    let both = [z, k, z];
    vec![
        nested_greedy(letters),
        three_stars(
            [z; 3],
            letters,
            gathered(&[z; 3], &none),
            spread(&[z; 3], &none),
        ),
        three_stars(both, letters, gathered(&both, &none), mixed),
    ]
}

fn three_stars(stars: [Star; 3], letters: usize, code: Vec<bool>, settled: Vec<bool>) -> Full {
    Full {
        name: format!("nested {}, {letters} letters", kinds(&stars)),
        text: under(&stars, A),
        tape: vec![b'a'; letters],
        code,
        settled,
    }
}

/// A star of 30 letters one behind the other, which are joined to the left
/// under `K` and to the right under `Z`, then a star of `t` for letters that
/// do not fill a round: 63 lines.
pub fn long_sequence(star: Star, letters: usize) -> Full {
    const PART: usize = 30;
    let part: Vec<u8> = (b'A'..).take(PART).collect();
    let mut lines: Vec<String> = part
        .iter()
        .map(|&letter| format!("L\t-\t{}", char::from(letter)))
        .collect();
    let mut joined = match star {
        Star::Greedy => 0,
        Star::Lazy => PART - 1,
    };
    for step in 1..PART {
        lines.push(match star {
            Star::Greedy => format!("S\t-\t{joined}\t{step}"),
            Star::Lazy => format!("S\t-\t{}\t{joined}", PART - 1 - step),
        });
        joined = lines.len() - 1;
    }
    lines.push(format!("{}\t-\t{joined}", kind(star)));
    let rounds_line = lines.len() - 1;
    lines.push("L\t-\tt".to_string());
    lines.push(format!("{}\t-\t{}", kind(star), lines.len() - 1));
    lines.push(format!("S\t-\t{rounds_line}\t{}", lines.len() - 1));
    let text = lines
        .iter()
        .enumerate()
        .map(|(place, line)| format!("{place}\t{line}\n"))
        .collect();
    let (rounds, rest) = (letters / PART, letters % PART);
    let mut tape = part.repeat(rounds);
    tape.extend(vec![b't'; rest]);
    let mut code = gathered(&[star], &vec![vec![]; rounds]);
    code.extend(gathered(&[star], &vec![vec![]; rest]));
    Full {
        name: format!("{} of a long sequence, {letters} letters", kind(star)),
        text,
        tape,
        settled: code.clone(),
        code,
    }
}

/// 63 stars over a range with as many letters as a tape may have: 478,801 bits
/// where the stars are lazy. The codes handed in are not the settled ones.
fn sixty_three() -> Vec<Full> {
    let tape = digits(MOST_LETTERS);
    let bits: Vec<Vec<bool>> = tape.iter().map(|&digit| eight(digit)).collect();
    let (greedy, lazy) = ([Star::Greedy; 63], [Star::Lazy; 63]);
    // The last letter in a round of its own.
    let (first, last) = bits.split_at(MOST_LETTERS - 1);
    let mut two_rounds = Vec::new();
    for part in [first, last] {
        two_rounds.push(false);
        two_rounds.extend(gathered(&greedy[1..], part));
    }
    two_rounds.push(true);
    let row = |stars: [Star; 63], code, settled| Full {
        name: format!("63 {} over a range, 3600 letters", kind(stars[0])),
        text: under(&stars, DIGITS),
        tape: tape.clone(),
        code,
        settled,
    };
    vec![
        row(greedy, two_rounds, gathered(&greedy, &bits)),
        row(lazy, gathered(&lazy, &bits), spread(&lazy, &bits)),
    ]
}

/// A star of 18 choices, or of two of them again. A letter takes 18 bits by the
/// choices, and `more` of them take 19; two bits and the round's by the other
/// way, which is the later one.
pub fn choices(star: Star, letters: usize, more: usize) -> Full {
    const CHOICES: usize = 18;
    let mut lines: Vec<String> = (b'a'..)
        .take(CHOICES)
        .map(|letter| format!("L\t-\t{}", char::from(letter)))
        .collect();
    // From the last two on: (a | (b | ..)).
    let mut right = CHOICES - 1;
    for left in (0..CHOICES - 1).rev() {
        lines.push(format!("A\t-\t{left}\t{right}"));
        right = lines.len() - 1;
    }
    lines.push("L\t-\tp".to_string());
    lines.push("L\t-\tq".to_string());
    lines.push(format!("A\t-\t{}\t{}", right + 1, right + 2));
    lines.push(format!("A\t-\t{right}\t{}", right + 3));
    lines.push(format!("{}\t-\t{}", kind(star), right + 4));
    let text = lines
        .iter()
        .enumerate()
        .map(|(place, line)| format!("{place}\t{line}\n"))
        .collect();
    let tape = [vec![b'q'; more], vec![b'p'; letters - more]].concat();
    let by = |bits: fn(u8) -> Vec<bool>| -> Vec<bool> {
        let each: Vec<Vec<bool>> = tape.iter().map(|&letter| bits(letter)).collect();
        gathered(&[star], &each)
    };
    let settled = by(|letter| {
        // Left of the two ways, right past each letter before this one, left.
        let mut bits = vec![false];
        bits.extend(vec![true; usize::from(letter - b'a')]);
        bits.push(false);
        bits
    });
    let code = by(|letter| vec![true, letter == b'q']);
    Full {
        name: format!(
            "{} of choices, {letters} letters, {} bits",
            kind(star),
            settled.len()
        ),
        text,
        tape,
        code,
        settled,
    }
}
