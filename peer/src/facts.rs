//! Shown facts: one entry a print, as text lines.

use std::io::Write;

use crate::conditions::Letters;
use crate::corrections::CancelKind;
use crate::day::{Output, Trade};
use crate::lines::{Mode, Previous, Side};
use crate::price::DOLLAR;
use crate::reader::{Print, ReadFacts};
use crate::refusals::Refusal;
use crate::tape::{Tape, ROOM};
use crate::volume::has_characters;

/// What a print shows of one side: price and previous last by value, the set of conditions with N as M and C as K.
#[derive(Clone, Copy, PartialEq, Eq, Debug)]
pub struct ShownSide {
    pub price: u64,
    pub letters: Letters,
    /// 0 if none.
    pub days: u16,
    pub previous: Option<u64>,
    pub volume: u32,
}

impl ShownSide {
    pub fn new(side: &Side) -> Self {
        let previous = match side.previous {
            Previous::Price(previous) => Some(previous.value),
            _ => None,
        };
        let letters = side.letters.shown();
        ShownSide { price: side.price.value, letters, days: side.days, previous, volume: side.volume }
    }
}

/// The entries so far, a line feed after each.
#[derive(Default)]
pub struct Facts {
    pub text: Vec<u8>,
}

impl Facts {
    fn add(&mut self, text: std::fmt::Arguments) {
        self.text.write_fmt(text).expect("a vector takes all");
    }

    fn price(&mut self, value: u64) {
        self.add(format_args!("{}", value / DOLLAR));
        if !value.is_multiple_of(DOLLAR) {
            let fraction = format!("{:08}", value % DOLLAR);
            self.add(format_args!(".{}", fraction.trim_end_matches('0')));
        }
    }

    /// The set of conditions with days and previous last.
    fn conditions(&mut self, side: &ShownSide) {
        const ORDER: [(Letters, &str); 10] = [
            (Letters::OPENED, "O"),
            (Letters::SOLD, "S"),
            (Letters::SOLD_LAST, "L"),
            (Letters::NEXT_DAY_ONLY, "M"),
            (Letters::CASH_ONLY, "K"),
            (Letters::SELLER, "R"),
            (Letters::AVERAGE, "B"),
            (Letters::STOPPED, "T"),
            (Letters::RULE_127, "J"),
            (Letters::RULE_155, "G"),
        ];
        self.add(format_args!("cond="));
        if side.letters == Letters::NONE {
            self.add(format_args!("-"));
        }
        for (letters, text) in ORDER {
            if side.letters.any(letters) {
                self.add(format_args!("{text}"));
            }
        }
        match side.days {
            0 => self.add(format_args!(" days=- prev=")),
            days => self.add(format_args!(" days={days} prev=")),
        }
        match side.previous {
            Some(previous) => self.price(previous),
            None => self.add(format_args!("-")),
        }
    }

    /// Price, conditions, volume.
    fn whole_side(&mut self, side: &ShownSide, volume: bool) {
        self.add(format_args!("price="));
        self.price(side.price);
        self.add(format_args!(" "));
        self.conditions(side);
        if volume {
            self.add(format_args!(" vol={}", side.volume));
        } else {
            self.add(format_args!(" vol=-"));
        }
    }

    /// A side of a C, X or E: whole in normal, otherwise its conditions.
    fn bracketed(&mut self, mode: Mode, label: &str, side: &ShownSide) {
        self.add(format_args!(" {label}("));
        if mode == Mode::Normal {
            self.whole_side(side, true);
        } else {
            self.conditions(side);
        }
        self.add(format_args!(")"));
    }
}

/// What the reader tells of a print: name and facts, without security and suffix mark.
impl Facts {
    pub fn read(&mut self, print: &Print) {
        self.text.extend_from_slice(b" name=");
        self.text.extend_from_slice(print.name);
        match print.facts {
            ReadFacts::Announcement(text) => {
                self.text.extend_from_slice(b" A ");
                self.text.extend_from_slice(text);
            }
            ReadFacts::Trade(side) => {
                self.add(format_args!(" T "));
                self.whole_side(&side, true);
            }
            ReadFacts::Correction(original, correcting) => {
                self.add(format_args!(" C"));
                self.bracketed(Mode::Normal, "orig", &original);
                self.bracketed(Mode::Normal, "corr", &correcting);
            }
            ReadFacts::Cancel(kind, side) => {
                self.add(format_args!(" {}", kind_letter(kind)));
                self.bracketed(Mode::Normal, "side", &side);
            }
        }
    }
}

fn kind_letter(kind: CancelKind) -> char {
    match kind {
        CancelKind::Cancel => 'X',
        CancelKind::Error => 'E',
    }
}

impl Output for Facts {
    fn announcement(&mut self, write: impl Fn(&mut Tape)) -> Result<(), Refusal> {
        let mut room = [0; ROOM];
        let mut tape = Tape::new(&mut room);
        write(&mut tape);
        let len = tape.len();
        self.text.extend_from_slice(b"A ");
        self.text.extend_from_slice(&room[..len]);
        self.text.push(b'\n');
        Ok(())
    }

    fn trade(&mut self, mode: Mode, trade: Trade) -> Result<(), Refusal> {
        let temporary = trade.temporary && trade.security.names.differ();
        let volume =
            mode == Mode::Normal || (trade.shape.volume && has_characters(trade.side.volume, trade.security.unit));
        self.add(format_args!("T sec={} tmp={} ", trade.number, u8::from(temporary)));
        self.whole_side(&ShownSide::new(trade.side), volume);
        self.add(format_args!("\n"));
        Ok(())
    }

    fn correction(&mut self, mode: Mode, original: Trade, correcting: &Side) -> Result<(), Refusal> {
        self.add(format_args!("C sec={}", original.number));
        self.bracketed(mode, "orig", &ShownSide::new(original.side));
        self.bracketed(mode, "corr", &ShownSide::new(correcting));
        self.add(format_args!("\n"));
        Ok(())
    }

    fn cancel(&mut self, mode: Mode, kind: CancelKind, trade: Trade) -> Result<(), Refusal> {
        self.add(format_args!("{} sec={}", kind_letter(kind), trade.number));
        self.bracketed(mode, "side", &ShownSide::new(trade.side));
        self.add(format_args!("\n"));
        Ok(())
    }
}
