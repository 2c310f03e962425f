//! compare [COUNT [SEED]]: engine and reader through the library against the peer, on COUNT random days and as many random
//! tapes of each kind, the first of seed SEED (1). The same arguments make the same run; it stops at the first difference.

mod days;
mod entries;
mod lines;
mod tapes;

use std::time::Instant;

/// A minute or two.
const COUNT: u64 = 40_000;

fn main() {
    let arguments: Vec<String> = std::env::args().skip(1).collect();
    let numbers: Option<Vec<u64>> = arguments.iter().map(|argument| argument.parse().ok()).collect();
    let Some((count, seed)) = numbers.and_then(|numbers| match numbers[..] {
        [] => Some((COUNT, 1)),
        [count] => Some((count, 1)),
        [count, seed] => Some((count, seed)),
        _ => None,
    }) else {
        eprintln!("compare [COUNT [SEED]]");
        std::process::exit(2);
    };
    let begin = Instant::now();
    println!("seeds {seed} to {}", seed + count.max(1) - 1);
    let (mut lines, mut places) = (days::Counts::default(), tapes::Counts::default());
    for seed in seed..seed + count {
        let tape = days::compare(seed, &mut lines);
        tapes::compare(seed, &tape, &mut places);
    }
    println!("{lines}");
    println!("{places}");
    println!("no difference, {:.0} s", begin.elapsed().as_secs_f64());
}
