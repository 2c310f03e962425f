//! The reader: the longest normal print at a place of a tape, its undivided name and its facts.

use crate::exports;
use crate::side::Side;

/// The longest normal print at a place.
#[derive(Clone, Copy, PartialEq, Eq, Debug)]
pub struct Print<'a> {
    /// In bytes, at least 1.
    pub length: usize,
    /// The undivided name, a part of the tape; of a correction the first one; empty at an announcement.
    pub name: &'a [u8],
    pub facts: Facts<'a>,
}

/// What a print shows, without security and suffix mark.
#[derive(Clone, Copy, PartialEq, Eq, Debug)]
pub enum Facts<'a> {
    /// Its text.
    Announcement(&'a [u8]),
    Trade(Side),
    Cancel(Side),
    Error(Side),
    Correction {
        original: Side,
        correcting: Side,
    },
}

/// The longest normal print at a place of a tape; None, document 01's refusal 14, exactly where no normal print begins there.
pub fn read_at(tape: &[u8], place: usize) -> Option<Print<'_>> {
    let (answer, [length, from, name, kind, sides @ ..]) = exports::read_at(tape, place);
    if answer != 0 {
        return None;
    }
    let text = &tape[place..][..length as usize];
    let [first, second] = Side::both(sides);
    let facts = match kind as u8 {
        b'A' => Facts::Announcement(text),
        b'T' => Facts::Trade(first),
        b'X' => Facts::Cancel(first),
        b'E' => Facts::Error(first),
        b'C' => Facts::Correction { original: first, correcting: second },
        _ => unreachable!("a print is of one of five kinds"),
    };
    Some(Print { length: text.len(), name: &text[from as usize..][..name as usize], facts })
}
