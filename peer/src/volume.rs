//! Volume (001, 3.3).

use crate::lines::Network;
use crate::tape::Tape;

/// Full volume: figure dots at thousands and millions from 10,000 up.
#[inline(always)]
pub fn write_full(tape: &mut Tape, volume: u32) {
    if volume < 10_000 {
        tape.small(volume);
        return;
    }
    if volume < 1_000_000 {
        tape.small(volume / 1000);
    } else {
        tape.small(volume / 1_000_000);
        tape.byte(b',');
        tape.three(volume / 1000 % 1000);
    }
    tape.byte(b',');
    tape.three(volume % 1000);
}

/// The volume of a trade under its security's unit and network.
#[inline(always)]
pub fn write(tape: &mut Tape, volume: u32, unit: u8, network: Network) {
    if unit == 100 && volume.is_multiple_of(100) {
        if volume >= 10_000 {
            write_full(tape, volume);
            tape.byte(b's');
        } else if volume > 100 {
            tape.small(volume / 100);
            tape.byte(b's');
        }
        return;
    }
    let tens = unit < 100 && network == Network::A && volume.is_multiple_of(u32::from(unit));
    if tens && volume >= 10_000 {
        write_full(tape, volume);
        tape.byte(b'$');
    } else if tens && volume.is_multiple_of(10) {
        tape.small(volume / 10);
        tape.byte(b'$');
    } else {
        write_full(tape, volume);
        tape.text(b"SHRS");
    }
}

/// Whether `write` puts characters on the tape: all but 100 shares at unit 100.
pub fn has_characters(volume: u32, unit: u8) -> bool {
    !(unit == 100 && volume == 100)
}
