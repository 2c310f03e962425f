//! What a print shows of one side.

/// One side of a print. The reader gives all of it. Of the shown facts outside normal mode a cancel, an error and a correction
/// have no price and no volume, and a trade has a volume only if that put characters on the tape: 0 for none.
#[derive(Clone, Copy, PartialEq, Eq, Debug)]
pub struct Side {
    /// In units of ten to the power -8 dollars.
    pub price: u64,
    pub letters: Letters,
    /// 0 for none.
    pub days: u64,
    /// Previous last, in units of ten to the power -8 dollars; 0 for none.
    pub previous: u64,
    pub volume: u64,
}

impl Side {
    /// Two sides of five numbers each.
    pub(crate) fn both(numbers: [u64; 10]) -> [Side; 2] {
        [0, 5].map(|at| Side {
            price: numbers[at],
            letters: Letters(numbers[at + 1]),
            days: numbers[at + 2],
            previous: numbers[at + 3],
            volume: numbers[at + 4],
        })
    }
}

/// The set of condition letters as a print shows them, N as M and C as K.
#[derive(Clone, Copy, PartialEq, Eq, Debug)]
pub struct Letters(u64);

impl Letters {
    /// The letters from the lowest bit on.
    pub const ORDER: &'static [u8; 10] = b"OSLMKRBTJG";

    pub fn has(self, letter: u8) -> bool {
        Letters::ORDER.iter().position(|&other| other == letter).is_some_and(|bit| self.0 >> bit & 1 == 1)
    }

    /// The letters of the set, in the order above.
    pub fn iter(self) -> impl Iterator<Item = u8> {
        Letters::ORDER.iter().copied().filter(move |&letter| self.has(letter))
    }
}

/// Letters that are none of the ten are left out.
impl FromIterator<u8> for Letters {
    fn from_iter<I: IntoIterator<Item = u8>>(letters: I) -> Letters {
        let place = |letter| Letters::ORDER.iter().position(|&other| other == letter);
        Letters(letters.into_iter().filter_map(place).fold(0, |set, bit| set | 1 << bit))
    }
}
