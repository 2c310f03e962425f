//! read [--facts]: a tape on standard input; place and length of its prints on standard output, one line a print.
//! With --facts each line also has the print's undivided name and its facts.

use peer::program::{read, unbuffered};

fn main() -> std::io::Result<()> {
    let arguments: Vec<String> = std::env::args().skip(1).collect();
    let with_facts = match arguments.as_slice() {
        [] => false,
        [argument] if argument == "--facts" => true,
        _ => {
            eprintln!("read [--facts]: a tape on standard input");
            std::process::exit(2);
        }
    };
    read(unbuffered(std::io::stdin())?, unbuffered(std::io::stdout())?, with_facts)
}
