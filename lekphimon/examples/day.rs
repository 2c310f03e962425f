//! Document 01's example day through the library: what each line shows, the tape, then the print at its start read back.

use lekphimon::{read_at, Day, Entry, Facts, Side};

const LINES: [&str; 7] = [
    "D20030321",
    "S   1ABC                100AN0",
    "T   1N     1000          45692",
    "MD",
    "T   1N     4900          45552",
    "T   1N     5000          45552",
    "T   1N     4900          40692",
];

fn side_text(side: &Side) -> String {
    format!("price {}.{:08} volume {}", side.price / 100_000_000, side.price % 100_000_000, side.volume)
}

fn main() {
    let mut day = Day::fresh();
    let mut tape = [0; 1024];
    let mut written = 0;
    for (i, line) in LINES.iter().enumerate() {
        let line = format!("{line:<100}").into_bytes();
        // Each call is lent the rest of the tape.
        let rest = &mut tape[written..];
        if let Some(Entry::Trade { security, side, .. }) = day.shown(&line, rest.len()) {
            println!("security {security} {}", side_text(&side));
        }
        match day.take_line(&line, rest) {
            Ok(count) => written += count,
            Err(refusal) => eprintln!("{:>10}{:>3}", i + 1, refusal.number()),
        }
    }
    println!("{}", String::from_utf8_lossy(&tape[..written]));

    let print = read_at(&tape[..written], 0).expect("a print stands at the start");
    let Facts::Trade(side) = print.facts else { panic!("it is a trade") };
    println!("{} {}", String::from_utf8_lossy(print.name), side_text(&side));
}
