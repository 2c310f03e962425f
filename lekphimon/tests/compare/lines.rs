//! Random day lines, most of them lawful, some damaged.

use peer::dice::Dice;
use peer::random::{drawn, random_entry, random_side, trade_line, Side};

const MARKETS: &[u8; 10] = b"ABWMCDTNPX";

/// A security that the day has had an S line for, accepted or not.
struct Listed {
    number: usize,
    network: char,
    market: u8,
    /// n and d of its last line.
    price: (u64, usize),
}

/// What the lines of a day are drawn from.
pub struct Lines {
    dice: Dice,
    date: u64,
    /// S lines have numbers up to this one.
    most: u64,
    listed: Vec<Listed>,
}

impl Lines {
    pub fn new(seed: u64) -> Lines {
        let mut dice = Dice(seed);
        let most = dice.pick(&[1, 2, 4, 10, 60, 512]);
        let year = dice.pick(&[1000, 1929, 1987, 2000, 2003, 2004, 9998]);
        Lines { date: year * 10_000 + 101, dice, most, listed: Vec::new() }
    }

    /// How many lines the day has.
    pub fn count(&mut self) -> u64 {
        20 + self.most + self.dice.below(200)
    }

    pub fn dice(&mut self) -> &mut Dice {
        &mut self.dice
    }

    /// The line that opens the day, or one of any kind.
    pub fn next(&mut self, opening: bool) -> Vec<u8> {
        if opening {
            return drawn(&format!("D{}", self.date));
        }
        let entering = (self.listed.len() as u64) < self.most && self.dice.below(2) == 0;
        let mut line = match self.dice.below(200) {
            0 => self.date_line(),
            1..=9 => self.entry_line(),
            _ if entering || self.listed.is_empty() => self.entry_line(),
            10..=19 => drawn(self.dice.pick(&["MN", "MD", "MD", "MR", "MR", "MP", "MP"])),
            20..=23 => {
                drawn(&format!("V{:>6}", self.dice.pick(&[5_000, 5_001, 9_900, 10_000, 100_000, 4_999, 100_001])))
            }
            24..=28 => drawn(&format!("P{:>3}", self.dice.pick(&[1, 2, 6, 20, 99, 100, 0, 101]))),
            29..=40 => self.side_line('X', 1),
            41..=48 => self.side_line('E', 1),
            49..=74 => self.side_line('C', 2),
            _ => self.side_line('T', 1),
        };
        if self.dice.below(8) == 0 {
            for _ in 0..1 + self.dice.below(2) {
                damage(&mut self.dice, &mut line);
            }
        }
        line
    }

    /// Mostly a later date, which clears the table, now and then the same one or no date.
    fn date_line(&mut self) -> Vec<u8> {
        match self.dice.below(6) {
            0 => return drawn(&format!("D{:>8}", self.date)),
            1 => self.date += 30 + self.dice.below(70),
            _ => self.date += 1 + self.dice.below(3),
        }
        self.listed.clear();
        drawn(&format!("D{:>8}", self.date))
    }

    fn entry_line(&mut self) -> Vec<u8> {
        let number =
            if self.dice.below(3) == 0 { 1 + self.dice.below(self.most) } else { 1 + self.listed.len() as u64 };
        let entry = random_entry(&mut self.dice);
        let market = self.dice.pick(MARKETS);
        let mut line = entry.line(number as usize);
        line[28] = market;
        line[29] = self.dice.pick(b"0001");
        let price = random_side(&mut self.dice, entry.network).price;
        if number <= 512 && self.listed.iter().all(|listed| listed.number != number as usize) {
            self.listed.push(Listed { number: number as usize, network: entry.network, market, price });
        }
        line
    }

    /// A T, X, E or C line, mostly of a listed security and near its last price.
    fn side_line(&mut self, kind: char, sides: usize) -> Vec<u8> {
        let at = self.dice.below(self.listed.len() as u64) as usize;
        let listed = &mut self.listed[at];
        let network = if self.dice.below(30) == 0 { self.dice.pick(&['A', 'B']) } else { listed.network };
        let sides: Vec<Side> = (0..sides)
            .map(|_| {
                let mut side = random_side(&mut self.dice, network);
                match self.dice.below(4) {
                    0 => {}
                    _ => side.price = near(&mut self.dice, listed.price),
                }
                match self.dice.below(4) {
                    0 => side.volume = 100 * (45 + self.dice.below(10)),
                    1 => (side.letters, side.days, side.previous) = (String::new(), 0, None),
                    _ => {}
                }
                listed.price = side.price;
                side
            })
            .collect();
        let number = if self.dice.below(60) == 0 { 1 + self.dice.below(513) as usize } else { listed.number };
        let mut line = trade_line(kind, number, &sides);
        line[5] = if self.dice.below(2) == 0 { listed.market } else { self.dice.pick(MARKETS) };
        line
    }
}

/// The same price, also with another d, or one some steps away.
fn near(dice: &mut Dice, (n, d): (u64, usize)) -> (u64, usize) {
    let dollar = 10u64.pow(d as u32);
    let steps = match dice.below(8) {
        0 | 1 => 0,
        2 if d < 8 => return (n * 10, d + 1),
        2 if n.is_multiple_of(10) && d > 0 => return (n / 10, d - 1),
        2..=5 => 1 + dice.below(12),
        6 => dollar,
        _ => 10 * dollar,
    };
    let moved = if dice.below(2) == 0 { n.saturating_sub(steps) } else { n + steps };
    (moved.clamp(1, 1_000_000 * dollar - 1), d)
}

fn damage(dice: &mut Dice, line: &mut Vec<u8>) {
    let at = dice.below(line.len().max(1) as u64) as usize;
    let other = dice.below(line.len().max(1) as u64) as usize;
    let len = line.len();
    match dice.below(16) {
        _ if line.is_empty() => line.push(b'T'),
        0 | 1 => line[at] = 32 + dice.below(95) as u8,
        2 => line[at] = dice.below(256) as u8,
        3 => line[at] = b' ',
        4 => line[at] = b'0' + dice.below(10) as u8,
        5 => line.truncate(at),
        6 => line.resize(len + dice.pick(&[1, 1, 2, 100, 5_000]), dice.pick(b"  0T\n")),
        7 => line.swap(at, other),
        8 if len > 34 => (30..34).for_each(|column| line[column] = dice.pick(b"OSLNMCKBTRJG    ")),
        9 => line[0] = dice.pick(b"DSMVPTXECQ"),
        10 => line.copy_within(at.min(other)..at.max(other), 0),
        // Days, previous last, suffix and appendages: something, or nothing.
        11 if len > 51 => line[34..37].copy_from_slice(dice.pick(&[b"  5", b"   ", b"  0"])),
        12 if len > 51 => {
            line[37..52].copy_from_slice(dice.pick(&[b"           4402", b"               ", b"             44"]))
        }
        13 if len > 51 => {
            line[11..18].copy_from_slice(dice.pick(&[b"       ", b"WS     ", b"WSS    ", b"  WS   ", b"pCL    "]))
        }
        14 if len > 51 => {
            line[18..24].copy_from_slice(dice.pick(&[b"      ", b"N     ", b"XD  BC", b"    DL", b"ND    "]))
        }
        _ => {
            if let Some(digit) = line.iter_mut().filter(|byte| byte.is_ascii_digit()).nth(at % 8) {
                *digit = dice.pick(b"019 ");
            }
        }
    }
}
