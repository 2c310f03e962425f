//! Price and conditions (001, 3.5): the letters, refusals 10 and 11, their texts, what they qualify for.

use crate::lines::{Network, Previous, Side};
use crate::refusals::{ensure, Refusal};
use crate::tape::Tape;

/// A set of condition letters.
#[derive(Clone, Copy, PartialEq, Eq, Debug)]
pub struct Letters(u16);

impl Letters {
    pub const NONE: Letters = Letters(0);
    pub const OPENED: Letters = Letters(1);
    pub const SOLD: Letters = Letters(2);
    pub const SOLD_LAST: Letters = Letters(4);
    pub const NEXT_DAY: Letters = Letters(8);
    pub const NEXT_DAY_ONLY: Letters = Letters(16);
    pub const CASH: Letters = Letters(32);
    pub const CASH_ONLY: Letters = Letters(64);
    pub const AVERAGE: Letters = Letters(128);
    pub const STOPPED: Letters = Letters(256);
    pub const SELLER: Letters = Letters(512);
    pub const RULE_127: Letters = Letters(1024);
    pub const RULE_155: Letters = Letters(2048);

    pub const LATE: Letters = Self::OPENED.with(Self::SOLD).with(Self::SOLD_LAST);
    pub const NEXT: Letters = Self::NEXT_DAY.with(Self::NEXT_DAY_ONLY);
    pub const FOR_CASH: Letters = Self::CASH.with(Self::CASH_ONLY);
    pub const DELIVERY: Letters = Self::NEXT.with(Self::FOR_CASH).with(Self::SELLER);
    pub const RULES: Letters = Self::RULE_127.with(Self::RULE_155);
    /// Neither range nor last.
    pub const NOTHING: Letters = Self::CASH.with(Self::NEXT_DAY).with(Self::SELLER).with(Self::AVERAGE);

    #[inline(always)]
    pub const fn with(self, other: Letters) -> Letters {
        Letters(self.0 | other.0)
    }

    /// Whether any of the others is among these.
    #[inline(always)]
    pub const fn any(self, others: Letters) -> bool {
        self.0 & others.0 != 0
    }

    #[inline(always)]
    pub const fn count(self) -> u32 {
        self.0.count_ones()
    }

    /// As the tape shows them: N as M, C as K.
    pub fn shown(self) -> Letters {
        let mut shown = Letters(self.0 & !(Self::NEXT_DAY.0 | Self::CASH.0));
        if self.any(Self::NEXT_DAY) {
            shown = shown.with(Self::NEXT_DAY_ONLY);
        }
        if self.any(Self::CASH) {
            shown = shown.with(Self::CASH_ONLY);
        }
        shown
    }

    #[inline(always)]
    fn at_most_one(self, of: Letters) -> bool {
        let found = self.0 & of.0;
        found & found.wrapping_sub(1) == 0
    }

    #[inline(always)]
    pub fn qualifies_for_range(self) -> bool {
        !self.any(Self::NOTHING)
    }

    #[inline(always)]
    pub fn qualifies_for_last(self) -> bool {
        !self.any(Self::NOTHING.with(Self::LATE))
    }
}

pub fn letter(byte: u8) -> Option<Letters> {
    Some(match byte {
        b'O' => Letters::OPENED,
        b'S' => Letters::SOLD,
        b'L' => Letters::SOLD_LAST,
        b'N' => Letters::NEXT_DAY,
        b'M' => Letters::NEXT_DAY_ONLY,
        b'C' => Letters::CASH,
        b'K' => Letters::CASH_ONLY,
        b'B' => Letters::AVERAGE,
        b'T' => Letters::STOPPED,
        b'R' => Letters::SELLER,
        b'J' => Letters::RULE_127,
        b'G' => Letters::RULE_155,
        _ => return None,
    })
}

/// Refusal 10: letters repeated or excluded, J or G on the wrong network.
#[inline(always)]
pub fn check_letters(side: &Side, network: Network) -> Result<(), Refusal> {
    let letters = side.letters;
    let foreign = match network {
        Network::A => Letters::RULE_155,
        Network::B => Letters::RULE_127,
    };
    let lawful = !side.repeated
        && letters.at_most_one(Letters::LATE)
        && letters.at_most_one(Letters::DELIVERY)
        && !letters.any(foreign);
    ensure(lawful, Refusal::Letters)
}

/// Refusal 11: days exactly with R, both fields of the previous last exactly with G.
#[inline(always)]
pub fn check_companions(side: &Side) -> Result<(), Refusal> {
    let previous = match side.previous {
        Previous::Blank => !side.letters.any(Letters::RULE_155),
        Previous::Half => false,
        Previous::Price(_) => side.letters.any(Letters::RULE_155),
    };
    ensure(previous && side.letters.any(Letters::SELLER) == (side.days != 0), Refusal::Companion)
}

#[inline(always)]
pub fn write_after_name(tape: &mut Tape, letters: Letters) {
    if !letters.any(Letters::NEXT.with(Letters::LATE)) {
        return;
    }
    if letters.any(Letters::NEXT) {
        tape.text(b".ND");
    }
    if letters.any(Letters::OPENED) {
        tape.text(b".OPD");
    } else if letters.any(Letters::SOLD) {
        tape.text(b".SLD");
    } else if letters.any(Letters::SOLD_LAST) {
        tape.text(b".SLD.LAST");
    }
}

/// What stands after the price, and at the end.
#[inline(always)]
pub fn write_after_price(tape: &mut Tape, side: &Side) {
    if side.letters != Letters::NONE {
        write_closing(tape, side);
    }
}

#[inline(never)]
fn write_closing(tape: &mut Tape, side: &Side) {
    let letters = side.letters;
    if letters.any(Letters::FOR_CASH) {
        tape.text(b",c");
    }
    if letters.any(Letters::AVERAGE) {
        tape.text(b",b");
    }
    if letters.any(Letters::STOPPED) {
        tape.byte(b't');
    }
    if letters.any(Letters::SELLER) {
        tape.text(b"SELLER");
        tape.small(u32::from(side.days));
    }
    if letters.any(Letters::RULE_127) {
        tape.text(b"RULE127");
    }
    if let Previous::Price(previous) = side.previous {
        tape.text(b">>PREV.LAST");
        previous.write(tape, true);
        tape.text(b">>");
    }
}
