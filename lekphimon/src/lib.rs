//! The proved day engine and reader for the Low Speed Ticker of the Consolidated Tape System (SIAC, March 21, 2003), as
//! safe functions. The work is done by functions written in Rattle and proved against document 01's rules; this crate
//! lends them memory and gives their numbers names. crates/exports of the repository has the promises as equations.
//!
//! ```
//! use lekphimon::{Day, Refusal};
//!
//! let mut day = Day::fresh();
//! let mut tape = [0; 256];
//! let mut take = |line: &str| day.take_line(format!("{line:<100}").as_bytes(), &mut tape).map(|n| tape[..n].to_vec());
//! assert_eq!(take("MD"), Err(Refusal::NoDate));
//! assert_eq!(take("D20030321"), Ok(b"".to_vec()));
//! assert_eq!(take("S   1ABC                100AN0"), Ok(b"".to_vec()));
//! assert_eq!(take("T   1N     1000          45692"), Ok(b"ABC10s45,69".to_vec()));
//!
//! let print = lekphimon::read_at(b"ABC10s45,69ABC2s45,81", 11).unwrap();
//! assert_eq!((print.length, print.name), (10, &b"ABC"[..]));
//! ```

mod entry;
mod exports;
mod print;
mod refusal;
mod side;

pub use entry::Entry;
pub use exports::{NAMES, SETTINGS, TABLE};
pub use print::{read_at, Facts, Print};
pub use refusal::Refusal;
pub use side::{Letters, Side};

/// A day's state: settings as four numbers and two tables of 512 securities. Every value of them has a meaning, so any
/// state may be made from its parts.
#[derive(Clone, PartialEq, Eq, Debug)]
pub struct Day {
    /// The date, yyyymmdd, 0 before a D line is accepted; the letter of the mode as in an M line (`N`, `D`, `R`, `P`; any
    /// other number is normal); the volume delete level; the MPV level.
    pub settings: [u64; SETTINGS],
    /// Eleven numbers a security: unit (0 where none is entered), network, primary market, first-day issue, last printed
    /// price, high, low, last (in units of ten to the power -8 dollars, 0 for none), and three counts.
    pub table: Box<[u64; TABLE]>,
    /// Nineteen bytes a security: columns 6 to 24 of its S line.
    pub names: Box<[u8; NAMES]>,
}

impl Day {
    /// A fresh state: no D line accepted yet.
    pub fn fresh() -> Day {
        let mut day = Day { settings: [0; SETTINGS], table: Box::new([0; TABLE]), names: Box::new([0; NAMES]) };
        exports::fresh(&mut day.settings);
        day
    }

    /// One line of any bytes and any length. Accepted: its print stands at the start of the lent tape and its length comes
    /// back, 0 where nothing prints; the bytes after the print keep their values. Refused: its number; the day and every
    /// byte of the tape are as they were.
    pub fn take_line(&mut self, line: &[u8], tape: &mut [u8]) -> Result<usize, Refusal> {
        let (answer, count) = exports::take_line(&mut self.settings, &mut self.table, &mut self.names, line, tape);
        match answer {
            0 => Ok(usize::try_from(count).expect("a print is within its tape")),
            _ => Err(Refusal::numbered(answer).expect("a refusal has a number of 1 to 14")),
        }
    }
}

impl Default for Day {
    fn default() -> Day {
        Day::fresh()
    }
}
