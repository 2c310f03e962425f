//! Random days and tapes, for the tests of this crate and of lekphimon: day lines from their fields, and random fields; the
//! damage and the composed prints of tapes are in `tapes`. The same dice give the same lines.

use crate::dice::Dice;

pub mod tapes;

/// A line with its trailing blanks drawn.
pub fn drawn(line: &str) -> Vec<u8> {
    format!("{line:<100}").into_bytes()
}

/// The S line's fields; the parts of the name as they stand in their columns.
#[derive(Clone, Debug)]
pub struct Entry {
    pub root: String,
    pub suffix: String,
    pub temporary: String,
    pub appendage: String,
    pub unit: u64,
    pub network: char,
}

impl Entry {
    pub fn line(&self, number: usize) -> Vec<u8> {
        let Entry { root, suffix, temporary, appendage, unit, network } = self;
        drawn(&format!("S{number:>4}{root:<6}{suffix:<7}{temporary:<4}{appendage:<2}{unit:>3}{network}N0"))
    }

    /// The name as it stands on the tape.
    pub fn name(&self, temporary: bool) -> String {
        let mut name = self.root.clone();
        let shown = if temporary { self.temporary.as_str() } else { "" };
        for part in [&self.suffix, shown, &self.appendage] {
            if !part.is_empty() && !part.starts_with(['p', 'r', 'w']) {
                name.push('.');
            }
            name += part;
        }
        name
    }
}

/// Volume to previous last; the previous last has blank fields if it is None, days are blank if they are 0.
#[derive(Clone, Debug, Default)]
pub struct Side {
    pub volume: u64,
    pub price: (u64, usize),
    pub letters: String,
    pub days: u64,
    pub previous: Option<(u64, usize)>,
}

impl Side {
    fn columns(&self) -> String {
        let (n, d) = self.price;
        let days = if self.days == 0 { String::new() } else { self.days.to_string() };
        let previous = self.previous.map_or(String::new(), |(n, d)| format!("{n:>14}{d}"));
        format!("{:>9}{n:>14}{d}{:<4}{days:>3}{previous:>15}", self.volume, self.letters)
    }
}

/// A T, X, E (one side) or C line (two).
pub fn trade_line(kind: char, number: usize, sides: &[Side]) -> Vec<u8> {
    drawn(&format!("{kind}{number:>4}N{}", sides.iter().map(Side::columns).collect::<String>()))
}

pub fn random_entry(dice: &mut Dice) -> Entry {
    let root = match dice.below(3) {
        0 => dice
            .pick(&["ABC", "A", "ND", "SLD", "LAST", "WAS", "PREV", "SHRSS", "RULES", "SELL", "CORR", "N"])
            .to_string(),
        _ => (0..1 + dice.below(6)).map(|_| char::from(b'A' + dice.below(26) as u8)).collect(),
    };
    let letter = char::from(b'A' + dice.below(26) as u8);
    let suffix = match dice.below(6) {
        0 | 1 => String::new(),
        2 => format!("p{letter}{}", dice.pick(&["", ".CV", ".CL", "w"])),
        3 => format!("pC{}", char::from(dice.pick(b"ABCDEFGHIJKMNOPQRS"))),
        4 => dice.pick(&["p", "pw", "pCL", "pCV", "pCV.CL", "pWD", "r", "rw", "w"]).to_string(),
        _ => {
            const LISTED: &str =
                "A A.CL A.CV Aw A.N B B.CL B.CV Bw B.N CL CT CV CVR CV.CL EC F.N PP PT.CL SC SP SD TT U VR \
                                  WD WS W.WS WS.A WS.B WS.N WSw XW";
            dice.pick(&LISTED.split_whitespace().collect::<Vec<_>>()).to_string()
        }
    };
    let network = dice.pick(&['A', 'B']);
    let own = if network == 'A' { "BC" } else { "DL" };
    Entry {
        root,
        suffix,
        temporary: dice.pick(&["", "", "XD", "XDIS", "Xr", "N", "XI"]).to_string(),
        appendage: dice.pick(&["", "", "", own]).to_string(),
        unit: dice.pick(&[1, 10, 25, 50, 100, 100, 100]),
        network,
    }
}

fn random_price(dice: &mut Dice) -> (u64, usize) {
    let d = dice.pick(&[0, 0, 1, 2, 2, 3, 4, 5, 6, 7, 8]);
    let digits = 1 + dice.below(6 + d as u64) as u32;
    let n = match dice.below(4) {
        0 => 10u64.pow(digits - 1) * (1 + dice.below(9)),
        1 => 10u64.pow(digits) - 1,
        _ => dice.below(10u64.pow(digits)),
    };
    (n.max(1), d)
}

/// A side that a line of the network can have.
pub fn random_side(dice: &mut Dice, network: char) -> Side {
    let volume = match dice.below(6) {
        0 => 1 + dice.below(120),
        1 => 10 * (1 + dice.below(1_200)),
        2 => 100 * (1 + dice.below(120)),
        3 => dice.pick(&[100, 200, 9_900, 9_990, 9_999, 10_000, 10_025, 999_999, 1_000_000, 999_999_900, 999_999_999]),
        _ => {
            let digits = 1 + dice.below(9) as u32;
            1 + dice.below(10u64.pow(digits))
        }
    };
    let mut side = Side { volume: volume.min(999_999_999), price: random_price(dice), ..Side::default() };
    let groups = ["OSL", "NMCKR", "B", "T", if network == 'A' { "J" } else { "G" }];
    for group in groups {
        if side.letters.len() < 4 && dice.below(3) == 0 {
            side.letters.push(char::from(dice.pick(group.as_bytes())));
        }
    }
    if side.letters.contains('R') {
        side.days = dice.pick(&[1, 2, 9, 10, 60, 127, 999]);
    }
    if side.letters.contains('G') {
        side.previous = Some(random_price(dice));
    }
    side
}
