//! Price and conditions (001, 3.4): prices, by value and as text.

use crate::lines::Digits;
use crate::tape::Tape;

/// One dollar in the unit of values, 10^-8 dollars.
pub const DOLLAR: u64 = 100_000_000;

/// n over ten to the power `decimals`; n's digits are kept, they are the text of the print.
#[derive(Clone, Copy)]
pub struct Price {
    /// In 10^-8 dollars; at least 1, below 10^14.
    pub value: u64,
    pub decimals: u8,
    /// How many digits n has.
    count: u8,
    /// n in 16 digits, the first in the lowest byte.
    digits: u128,
}

/// Powers of ten.
pub const POWERS: [u64; 15] = {
    let mut powers = [1; 15];
    let mut i = 1;
    while i < 15 {
        powers[i] = 10 * powers[i - 1];
        i += 1;
    }
    powers
};

/// n from 1 to below ten to the power 6+d, d from 0 to 8.
#[inline(always)]
pub fn price(n: &Digits, decimals: u8) -> Option<Price> {
    let d = usize::from(decimals);
    if d > 8 || n.value == 0 || n.value >= POWERS[6 + d] {
        return None;
    }
    Some(Price { value: n.value * POWERS[8 - d], decimals, count: n.count, digits: n.text })
}

impl Price {
    #[inline(always)]
    pub fn ends_in_zero(&self) -> bool {
        (self.value / DOLLAR).is_multiple_of(10)
    }

    #[inline(always)]
    pub fn thousand_or_over(&self) -> bool {
        self.value >= 1000 * DOLLAR
    }

    /// The eight digits from a place of the sixteen on.
    #[inline(always)]
    fn digits_from(&self, place: usize) -> [u8; 8] {
        ((self.digits >> (8 * place)) as u64).to_le_bytes()
    }

    /// In full, or short: only the units digit of the whole part.
    #[inline(always)]
    pub fn write(&self, tape: &mut Tape, full: bool) {
        let d = usize::from(self.decimals);
        let point = 16 - d;
        let whole = if full { usize::from(self.count).saturating_sub(d) } else { 1 };
        tape.start_of(&self.digits_from((point - whole) & 15), whole);
        if !self.value.is_multiple_of(DOLLAR) {
            tape.byte(b',');
            tape.start_of(&self.digits_from(point & 15), d);
        }
    }
}

/// Whether the digits of tens or higher differ.
#[inline(always)]
pub fn tens_differ(a: u64, b: u64) -> bool {
    a / (10 * DOLLAR) != b / (10 * DOLLAR)
}
