//! Corrections and cancels (001, sections 5, 6).

use crate::conditions::Letters;
use crate::day::Settings;
use crate::lines::{Mode, Side};
use crate::price::tens_differ;
use crate::tape::Tape;
use crate::trades::{self, Security, Shape};

/// What both sides of a correction print, if it prints.
pub fn correction_shape(security: &Security, settings: &Settings, original: &Side, correcting: &Side) -> Option<Shape> {
    if settings.mode == Mode::Normal {
        return Some(Shape::FULL);
    }
    let price = correcting.price.value;
    let prices_differ = original.price.value != price;
    let either = original.letters.with(correcting.letters);
    let original_at_level = original.volume >= settings.delete_level;
    let at_level = correcting.volume >= settings.delete_level;
    let always = security.unit == 1 || correcting.letters.any(Letters::RULES);
    let prints = match settings.mode {
        Mode::Normal => true,
        Mode::Dvd => always || (prices_differ && at_level),
        Mode::Rpo | Mode::Mpv => {
            always
                || (settings.mode == Mode::Mpv && either.any(Letters::RULES))
                || at_level
                || original_at_level
                || (either.any(Letters::SELLER) && prices_differ)
                || security.new_extreme(correcting)
                || (correcting.letters.qualifies_for_last() && price != security.last)
        }
    };
    prints.then(|| Shape {
        full_price: security.unit == 1
            || original.price.ends_in_zero()
            || correcting.price.ends_in_zero()
            || original.price.thousand_or_over()
            || correcting.price.thousand_or_over()
            || (settings.mode != Mode::Mpv && tens_differ(original.price.value, price)),
        volume: at_level || either.any(Letters::RULES),
    })
}

/// What a cancel or error prints.
pub fn cancel_shape(security: &Security, settings: &Settings, side: &Side) -> Shape {
    if settings.mode == Mode::Normal {
        return Shape::FULL;
    }
    Shape {
        full_price: side.price.ends_in_zero() || security.unit == 1 || side.price.thousand_or_over(),
        volume: side.volume >= settings.delete_level || side.letters.any(Letters::RULES),
    }
}

/// The name repeats if the correcting trade has any of these.
pub const REPEATS_NAME: Letters = Letters::LATE.with(Letters::NEXT).with(Letters::FOR_CASH).with(Letters::AVERAGE);

pub fn write_correction(tape: &mut Tape, security: &Security, original: &Side, correcting: &Side, shape: Shape) {
    let name = &security.names.plain;
    tape.text(b"<<CORR.");
    trades::write(tape, Some(name), security, original, shape);
    tape.text(b"WAS.");
    let repeated = correcting.letters.any(REPEATS_NAME).then_some(name);
    trades::write(tape, repeated, security, correcting, shape);
    end(tape, correcting);
}

#[derive(Clone, Copy, PartialEq, Eq, Debug)]
pub enum CancelKind {
    Cancel,
    Error,
}

pub fn write_cancel(tape: &mut Tape, kind: CancelKind, security: &Security, side: &Side, shape: Shape) {
    match kind {
        CancelKind::Cancel => tape.text(b"<<CXL."),
        CancelKind::Error => tape.text(b"<<ERR."),
    }
    trades::write(tape, Some(&security.names.plain), security, side, shape);
    end(tape, side);
}

/// A closing G pair serves as the end pair.
fn end(tape: &mut Tape, last: &Side) {
    if !last.letters.any(Letters::RULE_155) {
        tape.text(b">>");
    }
}
