//! day: a day file on standard input; its tape on standard output, refused lines on standard error.

use peer::program::{day, unbuffered};

fn main() -> std::io::Result<()> {
    day(unbuffered(std::io::stdin())?, unbuffered(std::io::stdout())?, unbuffered(std::io::stderr())?)
}
