//! bench: a day file on standard input; lines per second of the engine through the library and of the peer's, in this
//! process, each called once a line with the rest of a tape that has been written before. Best of five runs from a fresh
//! state, the state made before the clock starts. Then the same for the two readers, print by print over the day's tape.

use std::hint::black_box;
use std::io::{self, Read};
use std::time::Instant;

use lekphimon::Day;

/// The day's tape, and how many lines were refused.
#[derive(PartialEq, Eq)]
struct Output {
    tape: Vec<u8>,
    refused: u64,
}

/// Every line once; the answer is the print's length, or a refusal.
fn run(lines: &[&[u8]], tape: &mut [u8], mut take: impl FnMut(&[u8], &mut [u8]) -> Option<usize>) -> (f64, Output) {
    let (mut at, mut refused) = (0, 0);
    let begin = Instant::now();
    for line in lines {
        match take(line, &mut tape[at..]) {
            Some(len) => at += len,
            None => refused += 1,
        }
    }
    let seconds = begin.elapsed().as_secs_f64();
    (seconds, Output { tape: tape[..at].to_vec(), refused })
}

/// Every print from the start of the tape, up to the first place without one: their number.
fn read_all(mut read: impl FnMut(usize) -> Option<usize>) -> (f64, u64) {
    let (mut place, mut prints) = (0, 0);
    let begin = Instant::now();
    while let Some(len) = read(place) {
        place += len;
        prints += 1;
    }
    (begin.elapsed().as_secs_f64(), prints)
}

/// The least time of five runs, and what the last one gave.
fn best<T>(mut run: impl FnMut() -> (f64, T)) -> (f64, T) {
    let (mut least, mut given) = run();
    for _ in 1..5 {
        let (seconds, output) = run();
        least = least.min(seconds);
        given = output;
    }
    (least, given)
}

fn report(what: &str, count: usize, library: f64, peer: f64, equal: bool) {
    let per_second = |seconds: f64| count as f64 / seconds;
    let (a, b) = (per_second(peer), per_second(library));
    println!("{what:<7} {count:>9} {a:>14.0} {b:>14.0} {:>6.2} {}", library / peer, if equal { "yes" } else { "NO" });
}

fn main() -> io::Result<()> {
    let mut file = Vec::new();
    io::stdin().read_to_end(&mut file)?;
    let lines: Vec<&[u8]> = file.split(|&byte| byte == b'\n').filter(|line| !line.is_empty()).collect();
    let mut tape = vec![b' '; 256 * (lines.len() + 1)];
    let (library, a) = best(|| {
        let mut day = Day::fresh();
        run(&lines, &mut tape, |line, tape| day.take_line(line, tape).ok())
    });
    let (peer, b) = best(|| {
        let mut day = peer::day::Day::new();
        run(&lines, &mut tape, |line, tape| day.take_line(line, tape).ok())
    });
    println!("what       number         peer/s      library/s  ratio equal");
    let equal = a == b;
    report("lines", lines.len(), library, peer, equal);
    let (library, prints) =
        best(|| read_all(|place| lekphimon::read_at(&a.tape, place).map(|print| black_box(print).length)));
    let (peer, others) =
        best(|| read_all(|place| peer::reader::read(&a.tape, place).ok().map(|print| black_box(print).len)));
    report("prints", prints as usize, library, peer, prints == others);
    if !equal || prints != others {
        std::process::exit(1);
    }
    Ok(())
}
