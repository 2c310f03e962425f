//! facts: a day file on standard input; the shown facts on standard output, one line an entry.

use peer::program::{facts, unbuffered};

fn main() -> std::io::Result<()> {
    facts(unbuffered(std::io::stdin())?, unbuffered(std::io::stdout())?)
}
