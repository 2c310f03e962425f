//! The engine: a day's state, and one call for each line.

use std::collections::HashSet;

use crate::announcements;
use crate::conditions::{check_companions, check_letters};
use crate::corrections::{self, CancelKind};
use crate::lines::{self, Line, Mode, Side};
use crate::names::{Name, Names};
use crate::refusals::{ensure, Refusal};
use crate::tape::{Tape, ROOM};
use crate::trades::{self, Security, Shape};

/// A day opens normal, level 5,000, MPV level 1.
#[derive(Clone, Copy)]
pub struct Settings {
    pub mode: Mode,
    pub delete_level: u32,
    pub mpv_level: u32,
}

const OPENING: Settings = Settings { mode: Mode::Normal, delete_level: 5_000, mpv_level: 1 };

/// The state: the last accepted date (0 if none), settings, the table by security number and its names.
pub struct Day {
    date: u32,
    settings: Settings,
    table: Box<[Security; 513]>,
    /// Both names of every security of the table.
    names: HashSet<Name>,
}

/// A printed trade.
pub struct Trade<'a> {
    pub number: usize,
    pub security: &'a Security,
    pub side: &'a Side,
    pub temporary: bool,
    pub shape: Shape,
}

/// Where the prints of a line go: the tape, or a record of the shown facts. An error (13) leaves the day as it was.
pub trait Output {
    fn announcement(&mut self, write: impl Fn(&mut Tape)) -> Result<(), Refusal>;
    fn trade(&mut self, mode: Mode, trade: Trade) -> Result<(), Refusal>;
    fn correction(&mut self, mode: Mode, original: Trade, correcting: &Side) -> Result<(), Refusal>;
    fn cancel(&mut self, mode: Mode, kind: CancelKind, trade: Trade) -> Result<(), Refusal>;
}

impl Output for Tape<'_> {
    fn announcement(&mut self, write: impl Fn(&mut Tape)) -> Result<(), Refusal> {
        write(self);
        Ok(())
    }

    #[inline(always)]
    fn trade(&mut self, _: Mode, trade: Trade) -> Result<(), Refusal> {
        let names = &trade.security.names;
        let name = if trade.temporary { &names.temporary } else { &names.plain };
        trades::write(self, Some(name), trade.security, trade.side, trade.shape);
        Ok(())
    }

    fn correction(&mut self, _: Mode, original: Trade, correcting: &Side) -> Result<(), Refusal> {
        corrections::write_correction(self, original.security, original.side, correcting, original.shape);
        Ok(())
    }

    fn cancel(&mut self, _: Mode, kind: CancelKind, trade: Trade) -> Result<(), Refusal> {
        corrections::write_cancel(self, kind, trade.security, trade.side, trade.shape);
        Ok(())
    }
}

/// A lent tape of any length: a print goes to a room first, then over to it if it fits (13).
struct Lent<'a> {
    tape: &'a mut [u8],
    len: usize,
}

impl Lent<'_> {
    fn print(&mut self, write: impl FnOnce(&mut Tape) -> Result<(), Refusal>) -> Result<(), Refusal> {
        let mut room = [0; ROOM];
        let mut tape = Tape::new(&mut room);
        write(&mut tape)?;
        let len = tape.len();
        ensure(len <= self.tape.len(), Refusal::Room)?;
        self.tape[..len].copy_from_slice(&room[..len]);
        self.len = len;
        Ok(())
    }
}

impl Output for Lent<'_> {
    fn announcement(&mut self, write: impl Fn(&mut Tape)) -> Result<(), Refusal> {
        self.print(|tape| tape.announcement(write))
    }

    fn trade(&mut self, mode: Mode, trade: Trade) -> Result<(), Refusal> {
        self.print(|tape| tape.trade(mode, trade))
    }

    fn correction(&mut self, mode: Mode, original: Trade, correcting: &Side) -> Result<(), Refusal> {
        self.print(|tape| tape.correction(mode, original, correcting))
    }

    fn cancel(&mut self, mode: Mode, kind: CancelKind, trade: Trade) -> Result<(), Refusal> {
        self.print(|tape| tape.cancel(mode, kind, trade))
    }
}

impl Default for Day {
    fn default() -> Self {
        Self::new()
    }
}

impl Day {
    /// A fresh state: no D accepted yet.
    pub fn new() -> Self {
        Day { date: 0, settings: OPENING, table: Box::new([Security::NONE; 513]), names: HashSet::with_capacity(1024) }
    }

    /// The last accepted date, 0 if none, the settings, and the table by security number.
    pub fn state(&self) -> (u32, Settings, &[Security; 513]) {
        (self.date, self.settings, &self.table)
    }

    /// One line of any bytes and any length; its print goes to the start of the lent tape, and its length comes back.
    /// The bytes after the print keep their values.
    pub fn take_line(&mut self, line: &[u8], tape: &mut [u8]) -> Result<usize, Refusal> {
        let line = Line::new(line).ok_or(Refusal::Bytes)?;
        let mut lent = Lent { tape, len: 0 };
        self.take(line, &mut lent)?;
        Ok(lent.len)
    }

    /// One line of 100 printable bytes: refusals 2 to 12, and 13 if the output has it; then the print and the new state.
    #[inline(always)]
    pub fn take(&mut self, line: Line, output: &mut impl Output) -> Result<(), Refusal> {
        let kind = line.column(1);
        if kind == b'T' && self.date != 0 {
            return self.take_trade(line, output);
        }
        self.take_other(kind, line, output)
    }

    #[inline(never)]
    fn take_other(&mut self, kind: u8, line: Line, output: &mut impl Output) -> Result<(), Refusal> {
        ensure(matches!(kind, b'D' | b'S' | b'M' | b'V' | b'P' | b'T' | b'X' | b'E' | b'C'), Refusal::Kind)?;
        ensure(kind == b'D' || self.date != 0, Refusal::NoDay)?;
        match kind {
            b'D' => self.take_date(line),
            b'S' => self.take_entry(line),
            b'M' => {
                let mode = lines::mode(line)?;
                let level = self.settings.mpv_level;
                output.announcement(|tape| announcements::write_mode(tape, mode, level))?;
                self.settings.mode = mode;
                Ok(())
            }
            b'V' => {
                let level = lines::delete_level(line)?;
                output.announcement(|tape| announcements::write_delete_level(tape, level))?;
                self.settings.delete_level = level;
                Ok(())
            }
            b'P' => {
                let level = lines::mpv_level(line)?;
                if self.settings.mode == Mode::Mpv {
                    output.announcement(|tape| announcements::write_mode(tape, Mode::Mpv, level))?;
                }
                self.settings.mpv_level = level;
                Ok(())
            }
            b'X' => self.take_cancel(CancelKind::Cancel, line, output),
            b'E' => self.take_cancel(CancelKind::Error, line, output),
            b'C' => self.take_correction(line, output),
            _ => self.take_trade(line, output),
        }
    }

    fn take_date(&mut self, line: Line) -> Result<(), Refusal> {
        let date = lines::date(line)?;
        ensure(date > self.date, Refusal::Date)?;
        self.date = date;
        self.settings = OPENING;
        self.table.fill(Security::NONE);
        self.names.clear();
        Ok(())
    }

    fn take_entry(&mut self, line: Line) -> Result<(), Refusal> {
        let entry = lines::entry(line)?;
        let number = usize::from(entry.security);
        ensure(self.table[number].unit == 0, Refusal::InUse)?;
        let names = Names::new(&entry)?;
        let taken = self.names.contains(&names.plain) || self.names.contains(&names.temporary);
        ensure(!taken, Refusal::SameName)?;
        self.names.insert(names.plain);
        self.names.insert(names.temporary);
        self.table[number] = Security {
            names,
            unit: entry.unit,
            network: entry.network,
            primary: entry.primary,
            first_day: entry.first_day,
            ..Security::NONE
        };
        Ok(())
    }

    #[inline(always)]
    fn take_trade(&mut self, line: Line, output: &mut impl Output) -> Result<(), Refusal> {
        let (number, market, side) = lines::trade(line)?;
        let security = &mut self.table[number];
        ensure(security.unit != 0, Refusal::NotEntered)?;
        if !side.plain {
            check_letters(&side, security.network)?;
            check_companions(&side)?;
        }
        let shape = trades::shape(security, &self.settings, market, &side);
        if let Some(shape) = shape {
            let temporary = security.trades < 5;
            output.trade(self.settings.mode, Trade { number, security, side: &side, temporary, shape })?;
        }
        security.after_trade(market, &side, shape.is_some());
        Ok(())
    }

    fn take_correction(&mut self, line: Line, output: &mut impl Output) -> Result<(), Refusal> {
        let (number, original, correcting) = lines::correction(line)?;
        let security = &mut self.table[number];
        ensure(security.unit != 0, Refusal::NotEntered)?;
        check_letters(&original, security.network)?;
        check_letters(&correcting, security.network)?;
        check_companions(&original)?;
        check_companions(&correcting)?;
        if let Some(shape) = corrections::correction_shape(security, &self.settings, &original, &correcting) {
            let trade = Trade { number, security, side: &original, temporary: false, shape };
            output.correction(self.settings.mode, trade, &correcting)?;
        }
        security.follow(&correcting);
        Ok(())
    }

    fn take_cancel(&mut self, kind: CancelKind, line: Line, output: &mut impl Output) -> Result<(), Refusal> {
        let (number, _, side) = lines::trade(line)?;
        let security = &self.table[number];
        ensure(security.unit != 0, Refusal::NotEntered)?;
        check_letters(&side, security.network)?;
        check_companions(&side)?;
        let shape = corrections::cancel_shape(security, &self.settings, &side);
        let trade = Trade { number, security, side: &side, temporary: false, shape };
        output.cancel(self.settings.mode, kind, trade)
    }
}
