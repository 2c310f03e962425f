//! Announcements: mode, MPV level, volume delete level.

use crate::lines::Mode;
use crate::tape::Tape;
use crate::volume;

pub fn write_mode(tape: &mut Tape, mode: Mode, mpv_level: u32) {
    match mode {
        Mode::Normal => tape.text(b"<<<TICKER.MODE.NORMAL>>"),
        Mode::Dvd => tape.text(b"<<<NOW.IN.DIGITS.&.VOLUME.DELETED.MODE>>"),
        Mode::Rpo => tape.text(b"<<<NOW.IN.REPEAT.PRICES.OMITTED.MODE>>"),
        Mode::Mpv => {
            tape.text(b"<<<MIN.PRICE.CHGS.OMITTED.NOW");
            let cents = 5 * mpv_level;
            if cents >= 100 {
                tape.small(cents / 100);
            }
            tape.text(&[b',', b'0' + (cents / 10 % 10) as u8, b'0' + (cents % 10) as u8]);
            tape.text(b">>");
        }
    }
}

pub fn write_delete_level(tape: &mut Tape, level: u32) {
    tape.text(b"<<<VOLUME.DELETE.LEVEL.IS.NOW");
    volume::write_full(tape, level);
    tape.text(b"SHRS>>");
}
