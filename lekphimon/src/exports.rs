//! The declarations of crates/exports_c/src/lib.rt, and one safe function for each. Nothing compares the two files: they are
//! changed together.
//!
//! A `&[u8]` of Rattle passes as a pointer and a length, a reference to an array of fixed size as a pointer. None of the
//! functions requires anything of the values. What Rattle's types say of the memory, Rust's types say as well: it is there,
//! of this size, and what is lent for writing overlaps nothing else that is lent.

pub const SETTINGS: usize = 4;
pub const TABLE: usize = 5632;
pub const NAMES: usize = 9728;
pub const SHOWN: usize = 13;
pub const READ: usize = 14;

mod declared {
    use super::{NAMES, READ, SETTINGS, SHOWN, TABLE};

    extern "C" {
        pub fn lekphimon_fresh(settings: *mut [u64; SETTINGS]);
        pub fn lekphimon_take_line(
            settings: *mut [u64; SETTINGS],
            table: *mut [u64; TABLE],
            names: *mut [u8; NAMES],
            line: *const u8,
            line_length: usize,
            tape: *mut u8,
            tape_length: usize,
            count: *mut u64,
        ) -> u64;
        pub fn lekphimon_shown(
            settings: *const [u64; SETTINGS],
            table: *const [u64; TABLE],
            names: *const [u8; NAMES],
            line: *const u8,
            line_length: usize,
            room: usize,
            numbers: *mut [u64; SHOWN],
        );
        pub fn lekphimon_read_at(tape: *const u8, tape_length: usize, place: usize, numbers: *mut [u64; READ]) -> u64;
    }
}

pub fn fresh(settings: &mut [u64; SETTINGS]) {
    // SAFETY: the array is borrowed for the call and has the declared size.
    unsafe { declared::lekphimon_fresh(settings) }
}

/// The answer and the length of the print.
pub fn take_line(
    settings: &mut [u64; SETTINGS],
    table: &mut [u64; TABLE],
    names: &mut [u8; NAMES],
    line: &[u8],
    tape: &mut [u8],
) -> (u64, u64) {
    let mut count = 0;
    // SAFETY: the arrays have the declared sizes, each slice goes with its own length, and all are borrowed for the call,
    // those written to exclusively.
    let answer = unsafe {
        declared::lekphimon_take_line(
            settings,
            table,
            names,
            line.as_ptr(),
            line.len(),
            tape.as_mut_ptr(),
            tape.len(),
            &mut count,
        )
    };
    (answer, count)
}

/// The thirteen numbers.
pub fn shown(
    settings: &[u64; SETTINGS],
    table: &[u64; TABLE],
    names: &[u8; NAMES],
    line: &[u8],
    room: usize,
) -> [u64; SHOWN] {
    let mut numbers = [0; SHOWN];
    // SAFETY: the arrays have the declared sizes, the slice goes with its own length, and all are borrowed for the call.
    unsafe { declared::lekphimon_shown(settings, table, names, line.as_ptr(), line.len(), room, &mut numbers) };
    numbers
}

/// The answer and the fourteen numbers.
pub fn read_at(tape: &[u8], place: usize) -> (u64, [u64; READ]) {
    let mut numbers = [0; READ];
    // SAFETY: the slice goes with its own length, and the array has the declared size.
    let answer = unsafe { declared::lekphimon_read_at(tape.as_ptr(), tape.len(), place, &mut numbers) };
    (answer, numbers)
}
