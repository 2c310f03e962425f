//! Shown facts: what a line adds to them.

use crate::exports;
use crate::side::Side;
use crate::Day;

/// The entry of a line that prints (document 01, "Shown facts and the whole day").
#[derive(Clone, Copy, PartialEq, Eq, Debug)]
pub enum Entry {
    /// Its text is the print.
    Announcement,
    /// `temporary`: the temporary suffix is shown.
    Trade {
        security: u64,
        temporary: bool,
        side: Side,
    },
    Cancel {
        security: u64,
        side: Side,
    },
    Error {
        security: u64,
        side: Side,
    },
    Correction {
        security: u64,
        original: Side,
        correcting: Side,
    },
}

impl Day {
    /// What `take_line` would add to the shown facts with this line and a tape of `room` bytes; None where it is refused or
    /// prints nothing. The day does not move.
    pub fn shown(&self, line: &[u8], room: usize) -> Option<Entry> {
        let [security, temporary, kind, sides @ ..] =
            exports::shown(&self.settings, &self.table, &self.names, line, room);
        let [side, correcting] = Side::both(sides);
        Some(match kind as u8 {
            0 => return None,
            b'A' => Entry::Announcement,
            b'T' => Entry::Trade { security, temporary: temporary == 1, side },
            b'X' => Entry::Cancel { security, side },
            b'E' => Entry::Error { security, side },
            b'C' => Entry::Correction { security, original: side, correcting },
            _ => unreachable!("an entry is of one of five kinds"),
        })
    }
}
