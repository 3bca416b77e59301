//! An outside reader of meter tapes, written from the documents alone, that
//! the verified reader is compared with. It favours the plain definition
//! over speed; see README.md for what was decided where room was left.

pub mod accounts;
pub mod altered;
pub mod automaton;
pub mod breaks;
pub mod brute;
pub mod calendar;
pub mod cases;
pub mod cells;
pub mod code;
pub mod codes;
pub mod cuts;
pub mod desks;
pub mod full;
pub mod hex;
pub mod hot;
pub mod lazy;
pub mod listing;
pub mod load;
pub mod memo;
pub mod one_digit;
pub mod patterns;
pub mod positions;
pub mod prng;
pub mod services;
pub mod stale;
pub mod subpattern;
pub mod table;
pub mod tapes;
pub mod terms;
pub mod two_pass;
pub mod value;
pub mod vectors;
pub mod visits;
pub mod walk;
