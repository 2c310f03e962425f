//! The day program: lines from a stream, the tape and the refusals to two others, in blocks. The reader's program.

use std::fs::File;
use std::io::{self, Read, Write};
use std::os::fd::AsFd;

use crate::day::Day;
use crate::facts::Facts;
use crate::lines::Line;
use crate::reader;
use crate::refusals::Refusal;
use crate::tape::{Tape, ROOM};

const BLOCK: usize = 256 * 1024;
/// Reading ends after this line.
const LAST_LINE: u64 = 9_999_999_999;
/// The reader's program ends above this place.
const LAST_PLACE: u64 = 9_999_999_999;

/// What comes next of a day file.
enum Next<'a> {
    Line(Line<'a>),
    /// A line that is refused 1.
    Refused,
    End,
}

impl<'a> Next<'a> {
    #[inline(always)]
    fn new(line: &'a [u8]) -> Self {
        Line::new(line).map_or(Next::Refused, Next::Line)
    }
}

/// Cuts a stream at line feeds. A line over 100 bytes may come shortened, still over 100.
struct Lines<R> {
    input: R,
    block: Vec<u8>,
    from: usize,
    to: usize,
    ended: bool,
}

impl<R: Read> Lines<R> {
    fn new(input: R) -> Self {
        Lines { input, block: vec![0; BLOCK], from: 0, to: 0, ended: false }
    }

    #[inline(always)]
    fn next(&mut self) -> io::Result<Next<'_>> {
        if self.to - self.from > 100 && self.block[self.from + 100] == b'\n' {
            let from = self.from;
            // 100 printable bytes hold no line feed.
            if Line::new(&self.block[from..from + 100]).is_some() {
                self.from += 101;
                return Ok(Next::new(&self.block[from..from + 100]));
            }
        }
        self.next_slowly()
    }

    #[inline(never)]
    fn next_slowly(&mut self) -> io::Result<Next<'_>> {
        let mut searched = 0;
        loop {
            let rest = &self.block[self.from..self.to];
            if let Some(len) = rest[searched..].iter().position(|&byte| byte == b'\n') {
                let from = self.from;
                let to = from + searched + len;
                self.from = to + 1;
                return Ok(Next::new(&self.block[from..to]));
            }
            if self.ended {
                let from = std::mem::replace(&mut self.from, self.to);
                let last = &self.block[from..self.to];
                return Ok(if last.is_empty() { Next::End } else { Next::new(last) });
            }
            // What remains of a line moves to the front; 101 bytes are enough to refuse it.
            let keep = rest.len().min(101);
            self.block.copy_within(self.from..self.from + keep, 0);
            self.from = 0;
            self.to = keep;
            searched = keep;
            let count = match self.input.read(&mut self.block[keep..]) {
                Err(error) if error.kind() == io::ErrorKind::Interrupted => continue,
                count => count?,
            };
            self.ended = count == 0;
            self.to += count;
        }
    }
}

/// A stream written in blocks.
struct Blocks<W> {
    output: W,
    block: Vec<u8>,
    len: usize,
}

impl<W: Write> Blocks<W> {
    fn new(output: W) -> Self {
        Blocks { output, block: vec![0; BLOCK + ROOM], len: 0 }
    }

    /// The next ROOM bytes.
    #[inline(always)]
    fn room(&mut self) -> &mut [u8; ROOM] {
        (&mut self.block[self.len..self.len + ROOM]).try_into().unwrap()
    }

    /// The room's first `len` bytes are written.
    #[inline(always)]
    fn advance(&mut self, len: usize) -> io::Result<()> {
        self.len += len;
        if self.len > BLOCK {
            self.flush()?;
        }
        Ok(())
    }

    #[inline(never)]
    fn flush(&mut self) -> io::Result<()> {
        self.output.write_all(&self.block[..self.len])?;
        self.len = 0;
        Ok(())
    }
}

/// A number at the end of blank columns.
#[inline(always)]
fn right_justify(columns: &mut [u8], mut number: u64) {
    for column in columns.iter_mut().rev() {
        *column = b'0' + (number % 10) as u8;
        number /= 10;
        if number == 0 {
            return;
        }
    }
}

/// Line number in columns 1-10, refusal in 11-13, a line feed.
fn refusal_line(room: &mut [u8; ROOM], number: u64, refusal: Refusal) -> usize {
    room[..14].copy_from_slice(b"              ");
    right_justify(&mut room[..10], number);
    right_justify(&mut room[10..13], refusal as u64);
    room[13] = b'\n';
    14
}

/// A day file to its tape and its refusals.
pub fn day(input: impl Read, tape: impl Write, refused: impl Write) -> io::Result<()> {
    let mut day = Day::new();
    let mut lines = Lines::new(input);
    let mut tape = Blocks::new(tape);
    let mut refused = Blocks::new(refused);
    let mut number = 0;
    while number < LAST_LINE {
        let mut print = Tape::new(tape.room());
        let taken = match lines.next()? {
            Next::Line(line) => day.take(line, &mut print),
            Next::Refused => Err(Refusal::Bytes),
            Next::End => break,
        };
        number += 1;
        match taken {
            Ok(()) => {
                let len = print.len();
                tape.advance(len)?;
            }
            Err(refusal) => {
                let len = refusal_line(refused.room(), number, refusal);
                refused.advance(len)?;
            }
        }
    }
    tape.flush()?;
    refused.flush()
}

/// A day file to the shown facts of its lines.
pub fn facts(input: impl Read, mut output: impl Write) -> io::Result<()> {
    let mut day = Day::new();
    let mut lines = Lines::new(input);
    let mut facts = Facts::default();
    let mut number = 0;
    while number < LAST_LINE {
        match lines.next()? {
            // A refused line shows nothing.
            Next::Line(line) => drop(day.take(line, &mut facts)),
            Next::Refused => {}
            Next::End => break,
        }
        number += 1;
        if facts.text.len() >= BLOCK {
            output.write_all(&facts.text)?;
            facts.text.clear();
        }
    }
    output.write_all(&facts.text)
}

/// Place and length in ten columns each.
#[inline(always)]
fn print_columns(room: &mut [u8; ROOM], place: u64, len: usize) {
    room[..20].copy_from_slice(b"                    ");
    right_justify(&mut room[..10], place);
    right_justify(&mut room[10..20], len as u64);
}

/// A tape to the places and lengths of its prints, one line a print, with name and facts if these are asked for.
/// It ends at the tape's end, behind a refusal, and above the last place.
pub fn read(mut input: impl Read, output: impl Write, with_facts: bool) -> io::Result<()> {
    let mut tape = Vec::new();
    input.read_to_end(&mut tape)?;
    let mut output = Blocks::new(output);
    let mut facts = Facts::default();
    let mut place = 0;
    while place < tape.len() && place as u64 <= LAST_PLACE {
        let print = reader::read(&tape, place);
        let len = print.map_or(0, |print| print.len);
        print_columns(output.room(), place as u64, len);
        output.advance(20)?;
        if with_facts {
            facts.text.clear();
            match &print {
                Ok(print) => facts.read(print),
                Err(_) => facts.text.extend_from_slice(b" name= -"),
            }
            for part in facts.text.chunks(ROOM) {
                output.room()[..part.len()].copy_from_slice(part);
                output.advance(part.len())?;
            }
        }
        output.room()[0] = b'\n';
        output.advance(1)?;
        if print.is_err() {
            break;
        }
        place += len;
    }
    output.flush()
}

/// A standard stream without the library's buffer.
pub fn unbuffered(stream: impl AsFd) -> io::Result<File> {
    Ok(File::from(stream.as_fd().try_clone_to_owned()?))
}
