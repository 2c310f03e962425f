//! Random tapes, at every place and past the end: length, name and facts of both readers.

use std::fmt;

use lekphimon::{read_at, Facts, Letters, Side};
use peer::conditions::letter;
use peer::corrections::CancelKind;
use peer::day::Day;
use peer::dice::Dice;
use peer::facts::ShownSide;
use peer::random::tapes::{composed, damage};
use peer::random::{drawn, random_entry, random_side, trade_line};
use peer::reader::{read, ReadFacts};

#[derive(Default)]
pub struct Counts {
    tapes: u64,
    places: u64,
    prints: u64,
}

impl fmt::Display for Counts {
    fn fmt(&self, f: &mut fmt::Formatter) -> fmt::Result {
        let Counts { tapes, places, prints } = self;
        write!(f, "{tapes} tapes, {places} places, {prints} of them with a print")
    }
}

/// The tape of a day, a normal one, a damaged one, one put together from parts, and one of bytes of the alphabet.
pub fn compare(seed: u64, day: &[u8], counts: &mut Counts) {
    let mut dice = Dice(seed ^ 0x7461_7065);
    let normal = normal(&mut dice);
    let mut damaged = normal.clone();
    for _ in 0..1 + dice.below(6) {
        if !damaged.is_empty() {
            damage(&mut dice, &mut damaged);
        }
    }
    let letters: Vec<u8> =
        (0..dice.below(60)).map(|_| dice.pick(b"ABCNSpw.0124589,,s$tbc<<>>SHRSRULE127SELLER")).collect();
    for (what, tape) in [
        ("day", day),
        ("normal", &normal),
        ("damaged", &damaged),
        ("composed", &composed(&mut dice)),
        ("letters", &letters),
    ] {
        compare_tape(seed, what, tape, counts);
    }
}

fn compare_tape(seed: u64, what: &str, tape: &[u8], counts: &mut Counts) {
    counts.tapes += 1;
    for place in (0..tape.len() + 2).chain([usize::MAX]) {
        let found = read_at(tape, place).map(|print| (print.length, print.name, print.facts));
        let expected = read(tape, place).ok().map(|print| (print.len, print.name, shown(&print.facts)));
        assert_eq!(found, expected, "seed {seed}, {what} tape, place {place}: {:?}", String::from_utf8_lossy(tape));
        counts.places += 1;
        counts.prints += u64::from(found.is_some());
    }
}

fn shown<'a>(facts: &ReadFacts<'a>) -> Facts<'a> {
    match facts {
        ReadFacts::Announcement(text) => Facts::Announcement(text),
        ReadFacts::Trade(side) => Facts::Trade(shown_side(side)),
        ReadFacts::Cancel(CancelKind::Cancel, side) => Facts::Cancel(shown_side(side)),
        ReadFacts::Cancel(CancelKind::Error, side) => Facts::Error(shown_side(side)),
        ReadFacts::Correction(original, correcting) => {
            Facts::Correction { original: shown_side(original), correcting: shown_side(correcting) }
        }
    }
}

fn shown_side(side: &ShownSide) -> Side {
    let has = |byte: u8| side.letters.any(letter(byte).expect("it is a condition letter"));
    Side {
        price: side.price,
        letters: Letters::ORDER.iter().copied().filter(|&byte| has(byte)).collect(),
        days: u64::from(side.days),
        previous: side.previous.unwrap_or(0),
        volume: u64::from(side.volume),
    }
}

/// The tape of some lines in normal mode, of one to three securities.
fn normal(dice: &mut Dice) -> Vec<u8> {
    let mut day = Day::new();
    let mut tape = Vec::new();
    let mut take = |line: &[u8]| {
        let mut room = [0; 256];
        let len = day.take_line(line, &mut room).ok()?;
        tape.extend_from_slice(&room[..len]);
        Some(len)
    };
    take(&drawn("D20030321"));
    let mut networks = Vec::new();
    while networks.len() < 1 + dice.below(3) as usize {
        let entry = random_entry(dice);
        if take(&entry.line(networks.len() + 1)).is_some() {
            networks.push(entry.network);
        }
    }
    for _ in 0..dice.below(12) {
        let at = dice.below(networks.len() as u64) as usize;
        let mut side = || random_side(dice, networks[at]);
        let (first, second) = (side(), side());
        let line = match dice.below(10) {
            0 => drawn(&format!("V{:>6}", 5_000 + dice.below(95_001))),
            1 | 2 => trade_line('X', at + 1, &[first]),
            3 => trade_line('E', at + 1, &[first]),
            4..=6 => trade_line('C', at + 1, &[first, second]),
            _ => trade_line('T', at + 1, &[first]),
        };
        take(&line);
    }
    tape
}
