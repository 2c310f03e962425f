//! Random tapes. Whole ones, printed by the engine in normal mode, are read back print by print. At places of damaged ones,
//! and of some put together from parts, the reader is held to an oracle: every way to take a text apart into the fields of
//! an S line and one more line, each tried with the engine, and the longest text that it prints.
//! TAPES is the number of tapes of each kind (100), SEED the first seed (1); KEEP names a folder that tapes held to the
//! oracle go to, with what the program writes for each, to try another reader on them.

use peer::conditions::{letter, Letters};
use peer::corrections::CancelKind;
use peer::day::Day;
use peer::dice::Dice;
use peer::facts::{Facts, ShownSide};
use peer::lines::Line;
use peer::program;
use peer::random::tapes::{composed, damage};
use peer::random::{drawn, random_entry, random_side, trade_line, Entry, Side};
use peer::reader::{read, ReadFacts};
use std::collections::HashSet;
use std::fs::write;
use std::path::Path;

fn setting(name: &str, otherwise: u64) -> u64 {
    match std::env::var(name) {
        Ok(text) => text.parse().unwrap_or_else(|_| panic!("{name} is a number")),
        Err(_) => otherwise,
    }
}

/// A print as it was made: its text, its name and its facts as the vectors tell them.
struct Made {
    text: Vec<u8>,
    told: String,
}

/// A day under way, with a second state for the facts.
struct Maker {
    day: Day,
    shown: Day,
    made: Vec<Made>,
}

impl Maker {
    /// A line that is accepted; what it prints goes to the tape.
    fn take(&mut self, line: &[u8], name: &str) -> bool {
        let mut room = [0; 256];
        let Ok(len) = self.day.take_line(line, &mut room) else { return false };
        let mut facts = Facts::default();
        self.shown.take(Line::new(line).unwrap(), &mut facts).unwrap();
        if len > 0 {
            // Security and suffix mark are left out.
            let told = String::from_utf8(facts.text).unwrap();
            let parts =
                told.trim_end().split(' ').filter(|part| !part.starts_with("sec=") && !part.starts_with("tmp="));
            let told = format!(" name={name} {}", parts.collect::<Vec<_>>().join(" "));
            self.made.push(Made { text: room[..len].to_vec(), told });
        }
        true
    }
}

/// The prints of a random day in normal mode.
fn random_prints(dice: &mut Dice, lines: u64) -> Vec<Made> {
    let mut maker = Maker { day: Day::new(), shown: Day::new(), made: Vec::new() };
    maker.take(&drawn("D20030321"), "");
    let mut entries: Vec<(Entry, u32)> = Vec::new();
    while entries.len() < 3 {
        let entry = random_entry(dice);
        if maker.take(&entry.line(entries.len() + 1), "") {
            entries.push((entry, 0));
        }
    }
    for _ in 0..lines {
        let number = 1 + dice.below(3) as usize;
        let (entry, trades) = &mut entries[number - 1];
        let mut side = || random_side(dice, entry.network);
        let (first, second) = (side(), side());
        let plain = entry.name(false);
        let accepted = match dice.below(12) {
            0 => maker.take(&drawn(&format!("V{:>6}", 5_000 + dice.below(95_001))), ""),
            1 => {
                maker.take(&drawn(&format!("P{:>3}", 1 + dice.below(100))), "");
                maker.take(&drawn(dice.pick(&["MN", "MD", "MR", "MP"])), "") && maker.take(&drawn("MN"), "")
            }
            2 | 3 => maker.take(&trade_line('X', number, &[first]), &plain),
            4 => maker.take(&trade_line('E', number, &[first]), &plain),
            5..=7 => maker.take(&trade_line('C', number, &[first, second]), &plain),
            _ => {
                *trades += 1;
                maker.take(&trade_line('T', number, &[first]), &entry.name(*trades <= 5))
            }
        };
        assert!(accepted);
    }
    maker.made
}

#[test]
fn whole_tapes() {
    let (tapes, seed) = (setting("TAPES", 100), setting("SEED", 1));
    let mut prints = 0;
    for seed in seed..seed + tapes {
        let made = random_prints(&mut Dice(seed), 40);
        let tape = made.iter().flat_map(|made| made.text.clone()).collect::<Vec<u8>>();
        let mut place = 0;
        for made in &made {
            let print = read(&tape, place).unwrap_or_else(|_| panic!("seed {seed}, place {place}: no print"));
            let mut facts = Facts::default();
            facts.read(&print);
            let told = String::from_utf8(facts.text).unwrap();
            assert_eq!((print.len, told), (made.text.len(), made.told.clone()), "seed {seed}, place {place}");
            place += print.len;
            prints += 1;
        }
    }
    println!("seeds {seed} to {}: {prints} prints of whole tapes are read back", seed + tapes - 1);
}

/// Every announcement, as the engine prints it.
fn announcements() -> HashSet<Vec<u8>> {
    let mut found = HashSet::new();
    let mut day = Day::new();
    let mut take = |line: String| {
        let mut room = [0; 64];
        let len = day.take_line(&drawn(&line), &mut room).unwrap();
        if len > 0 {
            found.insert(room[..len].to_vec());
        }
    };
    take("D20030321".into());
    take("MN".into());
    take("MD".into());
    take("MR".into());
    (1..=100).for_each(|level| [format!("P{level:>3}"), "MP".into()].into_iter().for_each(&mut take));
    (5_000..=100_000).for_each(|level| take(format!("V{level:>6}")));
    found
}

/// Fields that a text may have been printed from: the name's place in it, and its sides.
struct Candidate {
    kind: char,
    name: std::ops::Range<usize>,
    sides: Vec<Side>,
    len: usize,
}

fn after(text: &[u8], at: usize, part: &str) -> Option<usize> {
    text.get(at..)?.starts_with(part.as_bytes()).then_some(at + part.len())
}

/// The ways on from a place with or without a part.
fn perhaps(text: &[u8], ways: Vec<(Side, usize)>, part: &str, letter: char) -> Vec<(Side, usize)> {
    let mut found = ways.clone();
    for (mut side, at) in ways {
        if let Some(at) = after(text, at, part) {
            side.letters.push(letter);
            found.push((side, at));
        }
    }
    found
}

fn digits(text: &[u8], at: usize, most: usize) -> usize {
    text[at..].iter().take(most).take_while(|byte| byte.is_ascii_digit()).count()
}

/// Every n and d whose digits stand at a place.
fn prices(text: &[u8], at: usize) -> Vec<((u64, usize), usize)> {
    let mut found = Vec::new();
    for whole in 0..=digits(text, at, 7) {
        let point = at + whole;
        let most = if text.get(point) == Some(&b',') { digits(text, point + 1, 8) } else { 0 };
        for d in 0..=most {
            let fraction = if d == 0 { &[][..] } else { &text[point + 1..point + 1 + d] };
            let n = [&text[at..point], fraction].concat();
            if !n.is_empty() {
                let n: u64 = String::from_utf8(n).unwrap().parse().unwrap();
                if n < 100_000_000_000_000 {
                    found.push(((n, d), point + if d == 0 { 0 } else { 1 + d }));
                }
            }
        }
    }
    found
}

/// Every volume that may stand at a place, none included.
fn volumes(text: &[u8], at: usize) -> Vec<(u64, usize)> {
    let mut found = vec![(100, at)];
    let run = text[at..].iter().take(12).take_while(|byte| byte.is_ascii_digit() || **byte == b',').count();
    for mark in ["s", "$", "SHRS"] {
        if let Some(end) = after(text, at + run, mark) {
            let figures: String =
                text[at..at + run].iter().filter(|byte| **byte != b',').map(|byte| char::from(*byte)).collect();
            for scale in [1, 10, 100] {
                let volume = figures.parse().unwrap_or(0) * scale;
                if (1..=999_999_999).contains(&volume) {
                    found.push((volume, end));
                }
            }
        }
    }
    found
}

/// Every side that may stand at a place, behind its name if it has one.
fn sides(text: &[u8], at: usize, named: bool) -> Vec<(Side, usize)> {
    let mut ways = vec![(Side::default(), at)];
    if named {
        ways = perhaps(text, ways, ".ND", 'N');
        for (part, letter) in [(".OPD", 'O'), (".SLD", 'S'), (".SLD.LAST", 'L')] {
            ways = perhaps(text, ways, part, letter);
        }
    }
    let mut priced = Vec::new();
    for (side, at) in ways {
        for (volume, at) in volumes(text, at) {
            for (price, at) in prices(text, at) {
                priced.push((Side { volume, price, ..side.clone() }, at));
            }
        }
    }
    for (part, letter) in [(",c", 'C'), (",b", 'B'), ("t", 'T')] {
        priced = perhaps(text, priced, part, letter);
    }
    let mut found = Vec::new();
    for (side, at) in priced {
        if let Some(at) = after(text, at, "SELLER") {
            for count in 1..=digits(text, at, 3) {
                let days = String::from_utf8(text[at..at + count].to_vec()).unwrap().parse().unwrap();
                found.push((Side { days, letters: side.letters.clone() + "R", ..side.clone() }, at + count));
            }
        }
        found.push((side, at));
    }
    found = perhaps(text, found, "RULE127", 'J');
    for (side, at) in found.clone() {
        for (previous, at) in after(text, at, ">>PREV.LAST").map_or(Vec::new(), |at| prices(text, at)) {
            if let Some(at) = after(text, at, ">>") {
                found
                    .push((Side { previous: Some(previous), letters: side.letters.clone() + "G", ..side.clone() }, at));
            }
        }
    }
    found.retain(|(side, _)| side.letters.len() <= 4);
    found
}

/// Every candidate at the start of a text.
fn candidates(text: &[u8]) -> Vec<Candidate> {
    let mut found = Vec::new();
    let (kind, from) = [("<<CORR.", 'C'), ("<<CXL.", 'X'), ("<<ERR.", 'E')]
        .into_iter()
        .find_map(|(begin, kind)| Some((kind, after(text, 0, begin)?)))
        .unwrap_or(('T', 0));
    for to in from + 1..=text.len().min(from + 24) {
        let name = from..to;
        for (side, at) in sides(text, to, true) {
            let ends = [Some(at), after(text, at, ">>")];
            match kind {
                'T' => found.push(Candidate { kind, name: name.clone(), sides: vec![side], len: at }),
                'C' => {
                    let Some(at) = after(text, at, "WAS.") else { continue };
                    let mut correcting = sides(text, at, false);
                    if text[at..].starts_with(&text[name.clone()]) {
                        correcting.extend(sides(text, at + name.len(), true));
                    }
                    for (second, at) in correcting {
                        for len in [Some(at), after(text, at, ">>")].into_iter().flatten() {
                            let sides = vec![side.clone(), second.clone()];
                            found.push(Candidate { kind, name: name.clone(), sides, len });
                        }
                    }
                }
                _ => found.extend(ends.into_iter().flatten().map(|len| Candidate {
                    kind,
                    name: name.clone(),
                    sides: vec![side.clone()],
                    len,
                })),
            }
        }
    }
    found
}

/// Every way to divide a name into parts that fit their columns.
fn entries(name: &str) -> Vec<Entry> {
    let undotted = |part: &str| part.strip_prefix('.').unwrap_or(part).to_string();
    let mut found = Vec::new();
    for root in 1..=name.len().min(6) {
        for suffix in root..=name.len().min(root + 8) {
            for temporary in suffix..=name.len().min(suffix + 5) {
                let entry = Entry {
                    root: name[..root].into(),
                    suffix: undotted(&name[root..suffix]),
                    temporary: undotted(&name[suffix..temporary]),
                    appendage: undotted(&name[temporary..]),
                    unit: 100,
                    network: 'A',
                };
                let fits = entry.suffix.len() <= 7 && entry.temporary.len() <= 4 && entry.appendage.len() <= 2;
                if fits && entry.name(true) == name {
                    found.push(entry);
                }
            }
        }
    }
    found
}

/// Whether an S line and the candidate's line print the text.
fn prints(text: &[u8], candidate: &Candidate) -> bool {
    let Ok(name) = std::str::from_utf8(&text[candidate.name.clone()]) else { return false };
    for entry in entries(name) {
        for network in ['A', 'B'] {
            for unit in [1, 10, 25, 50, 100] {
                let entry = Entry { unit, network, ..entry.clone() };
                let mut day = Day::new();
                day.take_line(&drawn("D20030321"), &mut []).unwrap();
                if day.take_line(&entry.line(1), &mut []).is_err() {
                    break;
                }
                let mut room = [0; 256];
                let line = trade_line(candidate.kind, 1, &candidate.sides);
                let printed = day.take_line(&line, &mut room).is_ok_and(|len| room[..len] == text[..candidate.len]);
                if printed {
                    return true;
                }
            }
        }
    }
    false
}

fn shown(side: &Side) -> ShownSide {
    let value = |(n, d): (u64, usize)| n * 10u64.pow(8 - d as u32);
    let letters = side.letters.bytes().fold(Letters::NONE, |letters, byte| letters.with(letter(byte).unwrap()));
    ShownSide {
        price: value(side.price),
        letters: letters.shown(),
        days: side.days as u16,
        previous: side.previous.map(value),
        volume: side.volume as u32,
    }
}

/// Length, name and facts of the longest print at the start of a text. All that print a text of this length agree.
fn oracle<'a>(text: &'a [u8], announcements: &HashSet<Vec<u8>>) -> Option<(usize, &'a [u8], ReadFacts<'a>)> {
    for len in 1..=text.len().min(42) {
        if announcements.contains(&text[..len]) {
            return Some((len, b"", ReadFacts::Announcement(&text[..len])));
        }
    }
    let mut candidates = candidates(text);
    candidates.sort_by_key(|candidate| std::cmp::Reverse(candidate.len));
    let mut found: Option<(usize, &[u8], ReadFacts)> = None;
    for candidate in &candidates {
        if found.is_some_and(|(len, _, _)| len > candidate.len) {
            break;
        }
        if !prints(text, candidate) {
            continue;
        }
        let first = shown(&candidate.sides[0]);
        let facts = match candidate.kind {
            'T' => ReadFacts::Trade(first),
            'X' => ReadFacts::Cancel(CancelKind::Cancel, first),
            'E' => ReadFacts::Cancel(CancelKind::Error, first),
            _ => ReadFacts::Correction(first, shown(&candidate.sides[1])),
        };
        let here = (candidate.len, &text[candidate.name.clone()], facts);
        assert!(found.is_none_or(|found| found == here), "one text, two answers: {found:?} and {here:?}");
        found = Some(here);
    }
    found
}

fn keep(folder: &Path, seed: u64, tape: &[u8]) {
    let mut lines = Vec::new();
    program::read(tape, &mut lines, false).unwrap();
    write(folder.join(format!("{seed}.tape")), tape).unwrap();
    write(folder.join(format!("{seed}.read")), lines).unwrap();
}

/// Holds the reader to the oracle at every place that it comes to, and at one more.
fn check(dice: &mut Dice, seed: u64, tape: &[u8], announcements: &HashSet<Vec<u8>>) -> Checked {
    if let Some(folder) = std::env::var_os("KEEP") {
        keep(Path::new(&folder), seed, tape);
    }
    let mut asked = vec![dice.below(1 + tape.len() as u64) as usize];
    let mut place = 0;
    while place < tape.len() {
        asked.push(place);
        match read(tape, place) {
            Ok(print) => place += print.len,
            Err(_) => break,
        }
    }
    let mut checked = Checked::default();
    for place in asked {
        let found = read(tape, place).ok().map(|print| (print.len, print.name, print.facts));
        let text = String::from_utf8_lossy(&tape[place..]);
        assert_eq!(found, oracle(&tape[place..], announcements), "seed {seed}, place {place}: {text}");
        checked.places += 1;
        checked.refused += u64::from(found.is_none());
    }
    checked
}

#[derive(Default)]
struct Checked {
    places: u64,
    refused: u64,
}

/// Normal prints, damaged.
fn damaged(dice: &mut Dice) -> Vec<u8> {
    let made = random_prints(dice, 2);
    let mut tape = made.iter().flat_map(|made| made.text.clone()).collect::<Vec<u8>>();
    for _ in 0..dice.below(4) {
        if !tape.is_empty() {
            damage(dice, &mut tape);
        }
    }
    tape
}

/// As many tapes as are asked for.
fn check_all(what: &str, seed: u64, make: fn(&mut Dice) -> Vec<u8>) {
    let tapes = setting("TAPES", 100);
    let announcements = announcements();
    let mut all = Checked::default();
    for seed in seed..seed + tapes {
        let mut dice = Dice(seed);
        let tape = make(&mut dice);
        let Checked { places, refused } = check(&mut dice, seed, &tape, &announcements);
        all.places += places;
        all.refused += refused;
    }
    let Checked { places, refused } = all;
    println!(
        "{what}, seeds {seed} to {}: {places} places, {refused} without a print, as the oracle says",
        seed + tapes - 1
    );
}

#[test]
fn damaged_tapes() {
    check_all("damaged tapes", setting("SEED", 1), damaged);
}

#[test]
fn composed_tapes() {
    check_all("composed tapes", setting("SEED", 1) + 1_000_000_000, composed);
}
