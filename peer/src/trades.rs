//! Trades by mode (001, section 4): a security's day, and what a trade prints.

use crate::conditions::{write_after_name, write_after_price, Letters};
use crate::day::Settings;
use crate::lines::{Mode, Network, Side};
use crate::names::{Name, Names};
use crate::price::{tens_differ, DOLLAR};
use crate::tape::Tape;
use crate::volume;

/// An entered security and its day. Prices by value; no price is 0.
#[derive(Clone, Copy)]
pub struct Security {
    pub names: Names,
    /// 0: not entered.
    pub unit: u8,
    pub network: Network,
    pub primary: u8,
    pub first_day: bool,
    /// 0 if none.
    pub printed: u64,
    /// 0 if none.
    pub high: u64,
    /// `u64::MAX` if none.
    pub low: u64,
    /// 0 if none.
    pub last: u64,
    /// T lines, up to 5.
    pub trades: u8,
    /// T lines that qualify for last, up to 1.
    pub qualifying: u8,
    /// T lines on the primary market, up to 6.
    pub primary_trades: u8,
}

impl Security {
    pub const NONE: Security = Security {
        names: Names::NONE,
        unit: 0,
        network: Network::A,
        primary: 0,
        first_day: false,
        printed: 0,
        high: 0,
        low: u64::MAX,
        last: 0,
        trades: 0,
        qualifying: 0,
        primary_trades: 0,
    };

    /// Whether a trade makes a new high or low that it qualifies for.
    #[inline(always)]
    pub fn new_extreme(&self, side: &Side) -> bool {
        side.letters.qualifies_for_range() && (side.price.value > self.high || side.price.value < self.low)
    }

    /// High, low and last follow a trade or a correcting trade.
    #[inline(always)]
    pub fn follow(&mut self, side: &Side) {
        if side.letters.qualifies_for_range() {
            self.high = self.high.max(side.price.value);
            self.low = self.low.min(side.price.value);
        }
        if side.letters.qualifies_for_last() {
            self.last = side.price.value;
        }
    }

    /// The state after an accepted trade.
    #[inline(always)]
    pub fn after_trade(&mut self, market: u8, side: &Side, printed: bool) {
        self.follow(side);
        if printed {
            self.printed = side.price.value;
        }
        self.trades = (self.trades + 1).min(5);
        self.qualifying |= u8::from(side.letters.qualifies_for_last());
        self.primary_trades = (self.primary_trades + u8::from(market == self.primary)).min(6);
    }
}

/// How a side is shown.
#[derive(Clone, Copy)]
pub struct Shape {
    pub full_price: bool,
    pub volume: bool,
}

impl Shape {
    pub const FULL: Shape = Shape { full_price: true, volume: true };
}

/// What a trade prints, if it prints.
#[inline(always)]
pub fn shape(security: &Security, settings: &Settings, market: u8, side: &Side) -> Option<Shape> {
    if settings.mode == Mode::Normal {
        return Some(Shape::FULL);
    }
    let price = side.price.value;
    let for_last = side.letters.qualifies_for_last();
    let first_for_last = for_last && security.qualifying == 0;
    let six = security.first_day && market == security.primary && security.primary_trades < 6;
    let at_level = side.volume >= settings.delete_level;
    let rules = side.letters.any(Letters::RULES);
    let always = six || at_level || security.unit == 1 || rules;
    let prints = match settings.mode {
        Mode::Normal | Mode::Dvd => true,
        Mode::Rpo => always || (for_last && price != security.printed) || security.new_extreme(side),
        Mode::Mpv => {
            let least = u64::from(settings.mpv_level) * (DOLLAR / 20);
            always || first_for_last || (for_last && security.printed != 0 && price.abs_diff(security.printed) > least)
        }
    };
    prints.then(|| Shape {
        full_price: security.printed == 0
            || tens_differ(price, security.printed)
            || side.price.ends_in_zero()
            || security.unit == 1
            || side.price.thousand_or_over()
            || six,
        volume: at_level || first_for_last || six || rules,
    })
}

/// Order: name, volume, price, conditions. A correcting trade may lack its name.
#[inline(always)]
pub fn write(tape: &mut Tape, name: Option<&Name>, security: &Security, side: &Side, shape: Shape) {
    if let Some(name) = name {
        name.write(tape);
        write_after_name(tape, side.letters);
    }
    if shape.volume {
        volume::write(tape, side.volume, security.unit, security.network);
    }
    side.price.write(tape, shape.full_price);
    write_after_price(tape, side);
}
