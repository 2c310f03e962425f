//! Shown facts as the peer tells them, one line an entry.

use lekphimon::{Entry, Side};

const DOLLAR: u64 = 100_000_000;

/// Nothing where nothing is shown.
pub fn text(entry: Option<Entry>, print: &[u8]) -> String {
    let Some(entry) = entry else { return String::new() };
    match entry {
        Entry::Announcement => format!("A {}\n", String::from_utf8_lossy(print)),
        Entry::Trade { security, temporary, side } => {
            format!("T sec={security} tmp={} {} vol={}\n", u8::from(temporary), priced(&side), or_none(side.volume))
        }
        Entry::Cancel { security, side } => format!("X sec={security} side({})\n", part(&side)),
        Entry::Error { security, side } => format!("E sec={security} side({})\n", part(&side)),
        Entry::Correction { security, original, correcting } => {
            format!("C sec={security} orig({}) corr({})\n", part(&original), part(&correcting))
        }
    }
}

/// A side in full, or its conditions where no price is shown.
fn part(side: &Side) -> String {
    match side.price {
        0 => conditions(side),
        _ => format!("{} vol={}", priced(side), side.volume),
    }
}

fn priced(side: &Side) -> String {
    format!("price={} {}", value(side.price), conditions(side))
}

fn conditions(side: &Side) -> String {
    let letters: String = side.letters.iter().map(char::from).collect();
    let letters = if letters.is_empty() { "-".into() } else { letters };
    let previous = if side.previous == 0 { "-".into() } else { value(side.previous) };
    format!("cond={letters} days={} prev={previous}", or_none(side.days))
}

fn or_none(n: u64) -> String {
    if n == 0 {
        "-".into()
    } else {
        n.to_string()
    }
}

fn value(price: u64) -> String {
    let fraction = format!("{:08}", price % DOLLAR);
    let fraction = fraction.trim_end_matches('0');
    match fraction {
        "" => (price / DOLLAR).to_string(),
        _ => format!("{}.{fraction}", price / DOLLAR),
    }
}
