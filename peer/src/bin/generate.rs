//! generate LINES SECURITIES MODE SEED [KIND]: a day file on standard output, LINES lines of 100 columns, a line feed after
//! each. One D, the S lines, an M line for D, R and P; then, by KIND:
//! mixed (as without KIND): mostly trades over all securities, with prices that move by small steps, and some corrections,
//! cancels, errors, levels and refused lines. MODE is N, D, R, P, or A for changes among all.
//! plain: such trades only, none with letters, none refused. MODE is N, D, R or P.
//! lettered: the very lines of plain, but that each trade carries one letter; none refused.
//! The same arguments give the same file.

use std::io::{self, BufWriter, Write};

use peer::dice::Dice;

/// One line: 100 columns, numbered from 1, blank at first.
struct Columns([u8; 101]);

impl Columns {
    fn new(kind: u8) -> Self {
        let mut line = [b' '; 101];
        line[0] = kind;
        line[100] = b'\n';
        Columns(line)
    }

    fn text(&mut self, from: usize, text: &[u8]) {
        self.0[from - 1..from - 1 + text.len()].copy_from_slice(text);
    }

    fn number(&mut self, to: usize, mut n: u64) {
        let mut column = to;
        loop {
            self.0[column - 1] = b'0' + (n % 10) as u8;
            n /= 10;
            column -= 1;
            if n == 0 {
                return;
            }
        }
    }
}

struct Security {
    unit: u64,
    network: u8,
    primary: u8,
    decimals: u8,
    /// In units of its decimals.
    price: u64,
}

const MARKETS: [u8; 10] = *b"ABWMCDTNPX";

/// What comes behind the opening lines.
#[derive(Clone, Copy)]
enum Kind {
    Mixed,
    Plain,
    Lettered,
}

/// The arguments.
#[derive(Clone, Copy)]
struct Asked {
    lines: u64,
    count: u64,
    mode: u8,
    seed: u64,
    kind: Kind,
}

/// The root of a security: two to four letters, distinct for distinct numbers, none of them reserved.
fn root(number: u64) -> Vec<u8> {
    let letter = |n: u64| b'A' + (n % 26) as u8;
    let mut root = vec![letter(number * 7), letter(number / 26)];
    if !number.is_multiple_of(3) {
        root.push(letter(number / 3));
    }
    if number.is_multiple_of(5) {
        root.push(b'Q');
    }
    root
}

fn entry(dice: &mut Dice, number: u64) -> (Columns, Security) {
    let security = Security {
        unit: dice.pick(&[100, 100, 100, 100, 100, 100, 100, 10, 25, 50, 1]),
        network: dice.pick(b"AAAB"),
        primary: dice.pick(b"NNA"),
        decimals: dice.pick(&[2, 2, 2, 2, 2, 2, 3, 4, 1]),
        price: 0,
    };
    let dollars = match dice.below(20) {
        0 => 1 + dice.below(5),
        1 => 200 + dice.below(2000),
        _ => 5 + dice.below(95),
    };
    let scale = 10u64.pow(u32::from(security.decimals));
    let security = Security { price: dollars * scale + dice.below(scale), ..security };
    let mut line = Columns::new(b'S');
    line.number(5, number);
    line.text(6, &root(number));
    let suffixes: [&[u8]; 10] = [b"", b"", b"", b"", b"", b"A", b"pB", b"WS", b"w", b"CV.CL"];
    line.text(12, dice.pick(&suffixes));
    let temporary: [&[u8]; 8] = [b"", b"", b"", b"", b"", b"XD", b"N", b"Xr"];
    line.text(19, dice.pick(&temporary));
    if dice.below(20) == 0 {
        line.text(23, if security.network == b'A' { b"BC" } else { b"DL" });
    }
    line.number(27, security.unit);
    line.text(28, &[security.network, security.primary]);
    line.number(30, u64::from(dice.below(20) == 0));
    (line, security)
}

fn volume(dice: &mut Dice, unit: u64) -> u64 {
    match dice.below(100) {
        0..=1 => 1 + dice.below(2 * unit),
        2..=4 => unit * (1 + dice.below(5_000)),
        5..=14 => 100 * (50 + dice.below(150)),
        15..=44 => unit,
        45..=74 => 100 * (1 + dice.below(9)),
        _ => unit * (1 + dice.below(40)),
    }
}

/// Volume to previous last, from a column on. `given` are letters that stand without days and previous last; else the dice
/// choose, most often none.
fn side(dice: &mut Dice, line: &mut Columns, from: usize, security: &Security, price: u64, given: Option<&[u8]>) {
    line.number(from + 8, volume(dice, security.unit));
    let shorter = price.is_multiple_of(10) && security.decimals > 0 && dice.below(2) == 0;
    let (n, d) = if shorter { (price / 10, security.decimals - 1) } else { (price, security.decimals) };
    line.number(from + 22, n);
    line.number(from + 23, u64::from(d));
    let rule: &[u8] = if security.network == b'A' { b"J" } else { b"G" };
    let letters = match (given, dice.below(200)) {
        (Some(letters), _) => letters,
        (None, 0) => b"R",
        (None, 1) => rule,
        (None, 2..=8) => dice.pick(&[&b"O"[..], b"S", b"L", b"N", b"M", b"C", b"K", b"B", b"T", b"SC", b"OT", b"LKB"]),
        _ => b"",
    };
    line.text(from + 24, letters);
    if letters.contains(&b'R') && given.is_none() {
        line.number(from + 30, 1 + dice.below(60));
    }
    if letters.contains(&b'G') && given.is_none() {
        line.number(from + 44, price);
        line.number(from + 45, u64::from(security.decimals));
    }
}

/// The price moves by a small step, now and then by a larger one.
fn step(dice: &mut Dice, security: &mut Security) {
    let cent = 10u64.pow(u32::from(security.decimals)).div_ceil(100);
    let least = 10u64.pow(u32::from(security.decimals));
    let steps = match dice.below(100) {
        0..=39 => 0,
        40..=94 => 1 + dice.below(4),
        _ => 5 + dice.below(40),
    };
    let most = 5_000 * least;
    let down = dice.below(2) == 0;
    security.price = if down && security.price > least + steps * cent || security.price > most {
        security.price - steps * cent
    } else {
        security.price + steps * cent
    };
}

fn trade(dice: &mut Dice, kind: u8, number: u64, security: &Security, given: Option<&[u8]>) -> Columns {
    let mut line = Columns::new(kind);
    line.number(5, number);
    let market = if dice.below(3) > 0 { security.primary } else { dice.pick(&MARKETS) };
    line.text(6, &[market]);
    side(dice, &mut line, 7, security, security.price, given);
    line
}

/// A T line at a price that has moved.
fn next_trade(dice: &mut Dice, number: u64, security: &mut Security, given: Option<&[u8]>) -> Columns {
    step(dice, security);
    trade(dice, b'T', number, security, given)
}

fn level(dice: &mut Dice, kind: u8) -> Columns {
    let mut line = Columns::new(kind);
    match kind {
        b'V' => line.number(7, 1_000 * (5 + dice.below(16))),
        _ => line.number(4, 1 + dice.below(8)),
    }
    line
}

/// A line that is refused: 1, 2, 4, 5, 6 (while a number is free), 7, 10, 11, 12.
fn refused(dice: &mut Dice, number: u64, securities: &[Security]) -> Columns {
    let security = &securities[number as usize - 1];
    let mut line = trade(dice, b'T', number, security, None);
    let count = securities.len() as u64;
    match dice.below(11) {
        0 => line.text(60, b"\t"),
        1 => line.text(1, b"Q"),
        2 => line.text(29, b"x"),
        3 => line.text(100, b"0"),
        4 => line.text(2, b"   0"),
        5 => line.number(5, if count < 512 { count + 1 } else { 513 }),
        6 => line.text(30, b"9"),
        7 => line = trade(dice, b'T', number, security, Some(b"SL")),
        8 => line = trade(dice, b'T', number, security, Some(b"R")),
        9 => line = entry(dice, number).0,
        _ => {
            line = Columns::new(b'D');
            line.text(2, b"20030321");
        }
    }
    line
}

/// A line of a mixed day.
fn mixed(dice: &mut Dice, number: u64, securities: &mut [Security], mode: u8) -> Columns {
    let security = &mut securities[number as usize - 1];
    match dice.below(1000) {
        0..=29 => refused(dice, number, securities),
        30..=44 => {
            let mut line = trade(dice, b'C', number, security, None);
            step(dice, security);
            side(dice, &mut line, 53, security, security.price, None);
            line
        }
        45..=49 => trade(dice, b'X', number, security, None),
        50..=52 => trade(dice, b'E', number, security, None),
        53 => level(dice, b'V'),
        54 => level(dice, b'P'),
        55..=56 if mode == b'A' => mode_line(dice.pick(b"NDRP")),
        _ => next_trade(dice, number, security, None),
    }
}

/// A letter that a trade may carry alone, without days and previous last: J on network A only.
fn lone_letter(dice: &mut Dice, network: u8) -> u8 {
    match network {
        b'A' => dice.pick(b"SOLTCNBKMJ"),
        _ => dice.pick(b"SOLTCNBKM"),
    }
}

fn mode_line(mode: u8) -> Columns {
    let mut line = Columns::new(b'M');
    line.text(2, &[mode]);
    line
}

fn run(asked: Asked, output: &mut impl Write) -> io::Result<()> {
    let Asked { lines, count, mode, seed, kind } = asked;
    let mut dice = Dice(seed);
    // The letters of a lettered day have dice of their own: all else is as in the plain day.
    let mut letter_dice = Dice(!seed);
    let mut date = Columns::new(b'D');
    date.text(2, b"20030321");
    output.write_all(&date.0)?;
    let mut securities = Vec::new();
    for number in 1..=count {
        let (line, security) = entry(&mut dice, number);
        output.write_all(&line.0)?;
        securities.push(security);
    }
    let mut written = 1 + count;
    if matches!(mode, b'D' | b'R' | b'P') {
        output.write_all(&mode_line(mode).0)?;
        written += 1;
    }
    while written < lines {
        let number = 1 + dice.below(count);
        let security = &mut securities[number as usize - 1];
        let line = match kind {
            Kind::Mixed => mixed(&mut dice, number, &mut securities, mode),
            Kind::Plain => next_trade(&mut dice, number, security, Some(b"")),
            Kind::Lettered => {
                let letter = lone_letter(&mut letter_dice, security.network);
                next_trade(&mut dice, number, security, Some(&[letter]))
            }
        };
        output.write_all(&line.0)?;
        written += 1;
    }
    Ok(())
}

/// The arguments, if they are lawful: room for the opening lines, 1 to 512 securities, changes of mode in mixed days only.
fn arguments() -> Option<Asked> {
    let arguments: Vec<String> = std::env::args().skip(1).collect();
    let (four, kind) = match arguments.as_slice() {
        [four @ .., kind] if four.len() == 4 => (four, kind.as_str()),
        four => (four, "mixed"),
    };
    let [lines, count, mode, seed] = four else { return None };
    let (lines, count, seed): (u64, u64, u64) = (lines.parse().ok()?, count.parse().ok()?, seed.parse().ok()?);
    let &[mode @ (b'N' | b'D' | b'R' | b'P' | b'A')] = mode.as_bytes() else { return None };
    let kind = match kind {
        "mixed" => Kind::Mixed,
        "plain" if mode != b'A' => Kind::Plain,
        "lettered" if mode != b'A' => Kind::Lettered,
        _ => return None,
    };
    let room = (1..=512).contains(&count) && lines >= count + 2;
    room.then_some(Asked { lines, count, mode, seed, kind })
}

fn main() -> io::Result<()> {
    let Some(asked) = arguments() else {
        eprintln!(
            "generate LINES SECURITIES MODE SEED [mixed|plain|lettered]: at most 512 securities, two lines more than these, \
             a mode of N D R P, in mixed days also A"
        );
        std::process::exit(2);
    };
    let mut output = BufWriter::with_capacity(1 << 18, io::stdout().lock());
    run(asked, &mut output)?;
    output.flush()
}

#[cfg(test)]
mod tests {
    use super::*;

    fn day(mode: u8, kind: Kind) -> Vec<u8> {
        let mut day = Vec::new();
        run(Asked { lines: 5_000, count: 512, mode, seed: 3, kind }, &mut day).unwrap();
        day
    }

    /// The plain and the lettered day: the same lines but for the letter, on every trade, and no line refused.
    #[test]
    fn plain_and_lettered() {
        for mode in *b"NDRP" {
            let (plain, lettered) = (day(mode, Kind::Plain), day(mode, Kind::Lettered));
            let pairs = || plain.chunks(101).zip(lettered.chunks(101));
            assert!(plain.len() == 5_000 * 101 && lettered.len() == plain.len());
            for (before, after) in pairs() {
                let (mut stripped, letter) = (after.to_vec(), after[30]);
                if before[0] == b'T' {
                    assert!(b"OSLNMCKBTJ".contains(&letter) && before[30..100].iter().all(|&byte| byte == b' '));
                    stripped[30] = b' ';
                }
                assert_eq!(stripped, before);
            }
            let opening = 513 + usize::from(mode != b'N');
            assert_eq!(pairs().filter(|(line, _)| line[0] == b'T').count(), 5_000 - opening);
            for day in [&plain, &lettered] {
                let (mut tape, mut refused) = (Vec::new(), Vec::new());
                peer::program::day(day.as_slice(), &mut tape, &mut refused).unwrap();
                assert!(!tape.is_empty() && refused.is_empty());
            }
        }
    }
}
