//! A random day, line by line: the outcome, the print, the shown facts and the state of both engines; after every refusal the
//! day and the lent tape byte for byte as before.

use std::fmt;

use lekphimon::{Day, Refusal, NAMES};
use peer::dice::Dice;
use peer::facts::Facts;
use peer::lines::{Line, Mode, Network};
use peer::trades::Security;

use crate::entries::text;
use crate::lines::Lines;

#[derive(Default)]
pub struct Counts {
    lines: u64,
    prints: u64,
    /// By number.
    refused: [u64; 15],
    /// Lines tried with every room from 0 up.
    rooms: u64,
}

impl fmt::Display for Counts {
    fn fmt(&self, f: &mut fmt::Formatter) -> fmt::Result {
        let Counts { lines, prints, refused, rooms } = self;
        write!(f, "{lines} lines, {prints} prints, {rooms} lines in every room from 0 up; refused")?;
        (1..14).try_for_each(|number| write!(f, " {number}: {}", refused[number]))
    }
}

/// Both engines on the same day.
struct Both {
    day: Day,
    peer: peer::day::Day,
    /// The peer's day once more, for the shown facts: it is handed the accepted lines.
    facts: peer::day::Day,
    /// Columns 6 to 24 of the accepted S lines.
    names: Box<[u8; NAMES]>,
    tape: Vec<u8>,
}

/// The tape of a random day, in whatever modes it had.
pub fn compare(seed: u64, counts: &mut Counts) -> Vec<u8> {
    let mut lines = Lines::new(seed);
    let mut both = Both {
        day: Day::fresh(),
        peer: peer::day::Day::new(),
        facts: peer::day::Day::new(),
        names: Box::new([0; NAMES]),
        tape: Vec::new(),
    };
    // Now and then there are lines before the first D.
    let opening = lines.dice().below(40).saturating_sub(30);
    for number in 0..lines.count() {
        let line = lines.next(number == opening);
        let dice = lines.dice();
        both.disguise(dice);
        let rooms = match dice.below(16) {
            0 => 0..usize::MAX,
            1..=3 => {
                let room = dice.below(220) as usize;
                room..room + 1
            }
            _ => 256..257,
        };
        counts.rooms += u64::from(rooms.start == 0);
        for room in rooms.clone() {
            let shown = || format!("seed {seed}, line {number}, room {room}: {:?}", String::from_utf8_lossy(&line));
            let answer = both.take(dice, &line, room, &shown);
            counts.lines += 1;
            match answer {
                Err(refusal) => counts.refused[usize::from(refusal.number())] += 1,
                Ok(len) => counts.prints += u64::from(len > 0),
            }
            if rooms.start == 0 && answer != Err(Refusal::Room) {
                // From 0 up, the first room that is enough is the print's length.
                assert!(answer.is_err() || answer == Ok(room), "{}", shown());
                break;
            }
        }
    }
    both.compare_tables(&|| format!("seed {seed}, at the end"));
    both.tape
}

impl Both {
    /// In normal mode any number that is no other mode's letter stands for it; a refused line must leave it.
    fn disguise(&mut self, dice: &mut Dice) {
        if self.day.settings[1] == u64::from(b'N') && dice.below(20) == 0 {
            self.day.settings[1] = dice.pick(&[0, 7, 65, 255, 256 + 68, u64::MAX]);
        }
    }

    fn take(
        &mut self,
        dice: &mut Dice,
        line: &[u8],
        room: usize,
        shown: &dyn Fn() -> String,
    ) -> Result<usize, Refusal> {
        let before = self.day.clone();
        let lent: Vec<u8> = (0..room).map(|_| dice.below(256) as u8).collect();
        let (mut tape, mut other) = (lent.clone(), lent.clone());
        let entry = self.day.shown(line, room);
        let answer = self.day.take_line(line, &mut tape);
        let expected = self.peer.take_line(line, &mut other);
        assert_eq!(answer.map_err(Refusal::number), expected.map_err(|refusal| refusal as u8), "{}", shown());
        assert_eq!(tape, other, "{}", shown());
        match answer {
            Err(_) => {
                assert_eq!(entry, None, "a refused line shows: {}", shown());
                assert!(self.day == before, "a refused line moved the day: {}", shown());
                assert_eq!(tape, lent, "a refused line wrote: {}", shown());
            }
            Ok(len) => {
                assert_eq!(tape[len..], lent[len..], "bytes behind the print: {}", shown());
                self.tape.extend_from_slice(&tape[..len]);
                let mut facts = Facts::default();
                self.facts.take(Line::new(line).expect("it is accepted"), &mut facts).expect("it is accepted");
                assert_eq!(text(entry, &tape[..len]), String::from_utf8_lossy(&facts.text), "{}", shown());
                self.compare_after(line, shown);
            }
        }
        answer
    }

    /// The settings, and what the line touched.
    fn compare_after(&mut self, line: &[u8], shown: &dyn Fn() -> String) {
        let (date, settings, table) = self.peer.state();
        let letter = match settings.mode {
            Mode::Normal => b'N',
            Mode::Dvd => b'D',
            Mode::Rpo => b'R',
            Mode::Mpv => b'P',
        };
        let (level, minimum) = (u64::from(settings.delete_level), u64::from(settings.mpv_level));
        assert_eq!(self.day.settings, [u64::from(date), u64::from(letter), level, minimum], "{}", shown());
        let kind = line[0];
        if kind == b'D' {
            self.names.fill(0);
            self.compare_tables(shown);
        } else if b"STXEC".contains(&kind) {
            let number: usize = String::from_utf8_lossy(&line[1..5]).trim().parse().expect("an accepted line has it");
            let at = number - 1;
            if kind == b'S' {
                self.names[19 * at..][..19].copy_from_slice(&line[5..24]);
                self.compare_names(shown);
            }
            assert_eq!(self.day.table[11 * at..][..11], row(&table[number]), "security {number}: {}", shown());
        }
    }

    fn compare_names(&self, shown: &dyn Fn() -> String) {
        assert!(self.day.names == self.names, "names: {}", shown());
    }

    /// Every security and every name.
    fn compare_tables(&self, shown: &dyn Fn() -> String) {
        let (_, _, table) = self.peer.state();
        for (at, security) in table[1..].iter().enumerate() {
            assert_eq!(self.day.table[11 * at..][..11], row(security), "security {}: {}", at + 1, shown());
        }
        self.compare_names(shown);
    }
}

/// A security as the library's table holds it.
fn row(security: &Security) -> [u64; 11] {
    if security.unit == 0 {
        return [0; 11];
    }
    let network = match security.network {
        Network::A => b'A',
        Network::B => b'B',
    };
    let low = if security.low == u64::MAX { 0 } else { security.low };
    [
        u64::from(security.unit),
        u64::from(network),
        u64::from(security.primary),
        u64::from(security.first_day),
        security.printed,
        security.high,
        low,
        security.last,
        u64::from(security.trades),
        u64::from(security.qualifying),
        u64::from(security.primary_trades),
    ]
}
