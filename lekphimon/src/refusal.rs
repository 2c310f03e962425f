//! Document 01, "Lines not taken".

use std::fmt;

/// Why a line or a place of a tape is not taken; its value is document 01's number.
#[derive(Clone, Copy, PartialEq, Eq, Hash, Debug)]
#[repr(u8)]
pub enum Refusal {
    /// Not 100 bytes of 32..126.
    Shape = 1,
    /// Unknown kind.
    Kind = 2,
    /// Not a D, and no D accepted yet.
    NoDate = 3,
    /// A field that is not in its form.
    Form = 4,
    /// A well-formed number outside its values, no such date.
    Value = 5,
    /// Security not entered.
    NotEntered = 6,
    /// S number in use.
    InUse = 7,
    /// Reserved root, unlisted suffix, the other network's appendage.
    Name = 8,
    /// A name equals another security's.
    SameName = 9,
    /// Letters repeated or excluded, J or G on the wrong network.
    Conditions = 10,
    /// Days without R or R without; previous last and G alike.
    Unmatched = 11,
    /// Date not after the last accepted D.
    DateOrder = 12,
    /// Lent tape shorter than the print.
    Room = 13,
    /// Reader: no print there, or past the end.
    NoPrint = 14,
}

impl Refusal {
    const ALL: [Refusal; 14] = [
        Refusal::Shape,
        Refusal::Kind,
        Refusal::NoDate,
        Refusal::Form,
        Refusal::Value,
        Refusal::NotEntered,
        Refusal::InUse,
        Refusal::Name,
        Refusal::SameName,
        Refusal::Conditions,
        Refusal::Unmatched,
        Refusal::DateOrder,
        Refusal::Room,
        Refusal::NoPrint,
    ];

    pub fn number(self) -> u8 {
        self as u8
    }

    pub fn numbered(number: u64) -> Option<Refusal> {
        Refusal::ALL.into_iter().find(|refusal| u64::from(refusal.number()) == number)
    }
}

impl fmt::Display for Refusal {
    fn fmt(&self, f: &mut fmt::Formatter) -> fmt::Result {
        write!(f, "refused {}", self.number())
    }
}

impl std::error::Error for Refusal {}
