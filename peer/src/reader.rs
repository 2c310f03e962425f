//! Reader: the longest normal print at a place of a tape, its undivided name and its facts.
//!
//! A name with what follows it is all of the upper row and a volume or price begins in the lower row, so the end of the
//! one is the begin of the other. Three choices are left, the longer way first: whether a volume stands before the
//! price, where the conditions of a trade stop, and whether `>>` begins a previous last or ends the print.

use crate::conditions::Letters;
use crate::corrections::{CancelKind, REPEATS_NAME};
use crate::facts::ShownSide;
use crate::lines::Network;
use crate::names::{is_reserved, undivided};
use crate::price::{DOLLAR, POWERS};
use crate::refusals::Refusal;

/// The print at a place.
#[derive(Clone, Copy, PartialEq, Eq, Debug)]
pub struct Print<'a> {
    pub len: usize,
    /// As it stands, a part of the tape; of a correction the first one; empty at an announcement.
    pub name: &'a [u8],
    pub facts: ReadFacts<'a>,
}

#[derive(Clone, Copy, PartialEq, Eq, Debug)]
pub enum ReadFacts<'a> {
    Announcement(&'a [u8]),
    Trade(ShownSide),
    Correction(ShownSide, ShownSide),
    Cancel(CancelKind, ShownSide),
}

/// The longest normal print at a place, or refusal 14.
#[inline]
pub fn read(tape: &[u8], place: usize) -> Result<Print<'_>, Refusal> {
    let here = tape.get(place..).unwrap_or(&[]);
    let mut rest = here;
    let print = if here.first() == Some(&b'<') { bracketed(&mut rest) } else { trade(&mut rest) };
    let (name, facts) = print.ok_or(Refusal::NoPrint)?;
    Ok(Print { len: here.len() - rest.len(), name, facts })
}

type Found<'a> = Option<(&'a [u8], ReadFacts<'a>)>;

/// Name, volume, price, conditions. Each function that reads takes what it has read off the rest of the tape.
#[inline]
fn trade<'a>(rest: &mut &'a [u8]) -> Found<'a> {
    let heading = heading(rest)?;
    let (side, _) = side(rest, heading.letters, heading.securities)?;
    Some((heading.name, ReadFacts::Trade(side)))
}

/// An announcement, a correction, a cancel or an error.
#[inline(never)]
fn bracketed<'a>(rest: &mut &'a [u8]) -> Found<'a> {
    if rest.starts_with(b"<<<") {
        return Some((&[], ReadFacts::Announcement(announcement(rest)?)));
    }
    if take(rest, b"<<CORR.") {
        return correction(rest);
    }
    let kind = if take(rest, b"<<CXL.") {
        CancelKind::Cancel
    } else if take(rest, b"<<ERR.") {
        CancelKind::Error
    } else {
        return None;
    };
    let (name, side, _) = first_side(rest)?;
    end(rest, &side)?;
    Some((name, ReadFacts::Cancel(kind, side)))
}

fn correction<'a>(rest: &mut &'a [u8]) -> Found<'a> {
    let (name, original, securities) = first_side(rest)?;
    if !take(rest, b"WAS.") {
        return None;
    }
    let mut letters = Letters::NONE;
    let named = rest.first().is_some_and(u8::is_ascii_uppercase);
    if named {
        let repeated = heading(rest)?;
        if repeated.name != name {
            return None;
        }
        letters = repeated.letters;
    }
    let (correcting, _) = side(rest, letters, securities)?;
    if named != correcting.letters.any(REPEATS_NAME) {
        return None;
    }
    end(rest, &correcting)?;
    Some((name, ReadFacts::Correction(original, correcting)))
}

/// The side of a cancel or error or the original of a correction: its name never shows a temporary suffix.
fn first_side<'a>(rest: &mut &'a [u8]) -> Option<(&'a [u8], ShownSide, Securities)> {
    let heading = heading(rest)?;
    if !heading.plain {
        return None;
    }
    let (side, securities) = side(rest, heading.letters, heading.securities)?;
    Some((heading.name, side, securities))
}

/// The end pair; a closing G pair serves as it.
fn end(rest: &mut &[u8], last: &ShownSide) -> Option<()> {
    (last.letters.any(Letters::RULE_155) || take(rest, b">>")).then_some(())
}

/// The securities, by unit and network, that can have printed what has been read: bits 0 to 4 for the units
/// 1, 10, 25, 50, 100 on network A, bits 5 to 9 for network B.
#[derive(Clone, Copy, PartialEq, Eq, Debug)]
struct Securities(u16);

impl Securities {
    const ALL: Securities = Securities(0b11111_11111);
    const ON_A: Securities = Securities(0b00000_11111);
    const ON_B: Securities = Securities(0b11111_00000);
    const UNIT_100: Securities = Securities(0b10000_10000);
    const BELOW_100_ON_A: Securities = Securities(0b00000_01111);
    const BELOW_100_ON_B: Securities = Securities(0b01111_00000);

    const fn with(self, others: Securities) -> Securities {
        Securities(self.0 | others.0)
    }

    const fn without(self, others: Securities) -> Securities {
        Securities(self.0 & !others.0)
    }

    /// Those among others; None if there are none.
    fn among(self, others: Securities) -> Option<Securities> {
        let both = self.0 & others.0;
        (both != 0).then_some(Securities(both))
    }

    /// On network A, with a unit below 100 of which the volume is a multiple.
    fn round_below_100(volume: u32) -> Securities {
        let multiple = |unit: u32| u16::from(volume.is_multiple_of(unit));
        Securities(1 | multiple(10) << 1 | multiple(25) << 2 | multiple(50) << 3)
    }

    /// Those that print the volume in full with SHRS.
    fn in_shares(volume: u32) -> Securities {
        let mut found = Self::BELOW_100_ON_B.with(Self::BELOW_100_ON_A.without(Self::round_below_100(volume)));
        if volume < 10_000 && !volume.is_multiple_of(10) {
            found = found.with(Self::BELOW_100_ON_A);
        }
        if !volume.is_multiple_of(100) {
            found = found.with(Self::UNIT_100);
        }
        found
    }
}

/// Name and conditions after the name.
struct Heading<'a> {
    name: &'a [u8],
    /// The name can stand without a temporary suffix.
    plain: bool,
    letters: Letters,
    securities: Securities,
}

/// A name has at most 20 bytes, what follows it at most 12.
const LONGEST_HEADING: usize = 32;

#[inline]
fn heading<'a>(rest: &mut &'a [u8]) -> Option<Heading<'a>> {
    let here = *rest;
    let root = here.iter().take(7).take_while(|byte| byte.is_ascii_uppercase()).count();
    let is_upper = |byte: u8| matches!(byte, b'A'..=b'Z' | b'.' | b'p' | b'r' | b'w');
    if !(1..=6).contains(&root) || is_reserved(&here[..root]) {
        return None;
    }
    if !here.get(root).is_some_and(|&byte| is_upper(byte)) {
        *rest = &here[root..];
        return Some(Heading { name: &here[..root], plain: true, letters: Letters::NONE, securities: Securities::ALL });
    }
    let len = here.iter().take(LONGEST_HEADING).take_while(|&&byte| is_upper(byte)).count();
    *rest = &here[len..];
    parted_heading(&here[..len], root)
}

/// A heading with more than a root: no part of a name is ND, OPD, SLD or LAST.
#[inline(never)]
fn parted_heading(text: &[u8], root: usize) -> Option<Heading<'_>> {
    let (mut name, mut letters) = if let Some(before) = text.strip_suffix(b".SLD.LAST") {
        (before, Letters::SOLD_LAST)
    } else if let Some(before) = text.strip_suffix(b".SLD") {
        (before, Letters::SOLD)
    } else if let Some(before) = text.strip_suffix(b".OPD") {
        (before, Letters::OPENED)
    } else {
        (text, Letters::NONE)
    };
    if let Some(before) = name.strip_suffix(b".ND") {
        (name, letters) = (before, letters.with(Letters::NEXT_DAY_ONLY));
    }
    let parts = undivided(name.get(root..)?)?;
    let securities = match parts.network {
        None => Securities::ALL,
        Some(Network::A) => Securities::ON_A,
        Some(Network::B) => Securities::ON_B,
    };
    Some(Heading { name, plain: parts.plain, letters, securities })
}

/// A side after its heading, and the securities left.
#[inline]
fn side(rest: &mut &[u8], letters: Letters, securities: Securities) -> Option<(ShownSide, Securities)> {
    let (volume, price, securities) =
        with_volume(rest, securities).or_else(|| Some((100, price(rest)?, securities.among(Securities::UNIT_100)?)))?;
    let mut side = ShownSide { price, letters, days: 0, previous: None, volume };
    match rest.first() {
        Some(b',' | b't' | b'S' | b'R' | b'>') => {
            let securities = closing(rest, &mut side, securities);
            Some((side, securities))
        }
        _ => Some((side, securities)),
    }
}

/// A volume that shows, then a price; nothing is taken off unless both stand there.
#[inline]
fn with_volume(rest: &mut &[u8], securities: Securities) -> Option<(u32, u64, Securities)> {
    let mut after = *rest;
    let (volume, printing) = volume(&mut after)?;
    let securities = securities.among(printing)?;
    let price = price(&mut after)?;
    *rest = after;
    Some((volume, price, securities))
}

/// The conditions after the price and at the end, as many as can be: each is left off if it is excluded, if it would be
/// a fifth letter, or if no security is left for it.
#[inline(never)]
fn closing(rest: &mut &[u8], side: &mut ShownSide, mut securities: Securities) -> Securities {
    let free = |side: &ShownSide| side.letters.count() < 4;
    let undelivered = |side: &ShownSide| free(side) && !side.letters.any(Letters::DELIVERY);
    if undelivered(side) && take(rest, b",c") {
        side.letters = side.letters.with(Letters::CASH_ONLY);
    }
    if free(side) && take(rest, b",b") {
        side.letters = side.letters.with(Letters::AVERAGE);
    }
    if free(side) && take(rest, b"t") {
        side.letters = side.letters.with(Letters::STOPPED);
    }
    if undelivered(side) {
        if let Some(days) = seller(rest) {
            side.letters = side.letters.with(Letters::SELLER);
            side.days = days;
        }
    }
    if let Some(on_a) = securities.among(Securities::ON_A) {
        if free(side) && take(rest, b"RULE127") {
            side.letters = side.letters.with(Letters::RULE_127);
            securities = on_a;
        }
    }
    if let Some(on_b) = securities.among(Securities::ON_B) {
        if free(side) {
            if let Some(previous) = previous_last(rest) {
                side.letters = side.letters.with(Letters::RULE_155);
                side.previous = Some(previous);
                securities = on_b;
            }
        }
    }
    securities
}

/// SELLER and days 1..999.
fn seller(rest: &mut &[u8]) -> Option<u16> {
    let mut after = rest.strip_prefix(b"SELLER")?;
    let (days, count) = number(&mut after, 3);
    if count == 0 {
        return None;
    }
    *rest = after;
    Some(days as u16)
}

fn previous_last(rest: &mut &[u8]) -> Option<u64> {
    let mut after = rest.strip_prefix(b">>PREV.LAST")?;
    let previous = price(&mut after)?;
    *rest = after.strip_prefix(b">>")?;
    Some(previous)
}

/// A volume that shows, with its mark, and the securities that print it so.
#[inline]
fn volume(rest: &mut &[u8]) -> Option<(u32, Securities)> {
    let mut after = *rest;
    let figures = figures(&mut after)?;
    let (volume, printing) = match (figures, after) {
        (Figures::Plain(hundreds @ 2..=99), [b's', ..]) => (100 * hundreds, Securities::UNIT_100),
        (Figures::Dotted(volume), [b's', ..]) if volume % 100 == 0 => (volume, Securities::UNIT_100),
        (Figures::Plain(tens @ ..=999), [b'$', ..]) => (10 * tens, Securities::round_below_100(10 * tens)),
        (Figures::Dotted(volume), [b'$', ..]) => (volume, Securities::round_below_100(volume)),
        (Figures::Plain(volume) | Figures::Dotted(volume), [b'S', b'H', b'R', b'S', ..]) => {
            (volume, Securities::in_shares(volume))
        }
        _ => return None,
    };
    let mark = if after[0] == b'S' { 4 } else { 1 };
    *rest = &after[mark..];
    Some((volume, printing))
}

/// The figures of a volume: 1..9,999 without dots, 10,000..999,999,999 with them.
#[derive(Clone, Copy)]
enum Figures {
    Plain(u32),
    Dotted(u32),
}

#[inline]
fn figures(rest: &mut &[u8]) -> Option<Figures> {
    let (first, count) = number(rest, 4);
    if count == 0 {
        return None;
    }
    let mut shown = first as u32;
    if rest.first() != Some(&b',') {
        return Some(Figures::Plain(shown));
    }
    if count > 3 {
        return None;
    }
    for _ in 0..2 {
        if take(rest, b",") {
            shown = 1000 * shown + three(rest)?;
        }
    }
    (shown >= 10_000).then_some(Figures::Dotted(shown))
}

/// A price in full, as long as can be, by value. A fraction is never all zeros.
#[inline]
fn price(rest: &mut &[u8]) -> Option<u64> {
    let mut after = *rest;
    let (whole, _) = number(&mut after, 6);
    let mut value = whole * DOLLAR;
    if let [b',', fraction @ ..] = after {
        let mut beyond = fraction;
        let (figures, count) = digits(&mut beyond, 8);
        if figures != 0 {
            value += figures * POWERS[8 - count];
            after = beyond;
        }
    }
    if value == 0 {
        return None;
    }
    *rest = after;
    Some(value)
}

/// At most so many digits: their value and how many there are.
#[inline]
fn digits(rest: &mut &[u8], most: usize) -> (u64, usize) {
    let mut value = 0;
    let mut count = 0;
    for &byte in rest.iter().take(most) {
        let digit = byte.wrapping_sub(b'0');
        if digit > 9 {
            break;
        }
        value = 10 * value + u64::from(digit);
        count += 1;
    }
    *rest = &rest[count..];
    (value, count)
}

/// The same, none where a zero leads.
#[inline]
fn number(rest: &mut &[u8], most: usize) -> (u64, usize) {
    if rest.first() == Some(&b'0') {
        return (0, 0);
    }
    digits(rest, most)
}

/// Exactly three digits.
fn three(rest: &mut &[u8]) -> Option<u32> {
    let (value, count) = digits(rest, 3);
    (count == 3).then_some(value as u32)
}

/// Takes a text off the rest if it stands there.
#[inline(always)]
fn take(rest: &mut &[u8], text: &[u8]) -> bool {
    match rest.strip_prefix(text) {
        Some(after) => {
            *rest = after;
            true
        }
        None => false,
    }
}

/// The announcement that stands there.
fn announcement<'a>(rest: &mut &'a [u8]) -> Option<&'a [u8]> {
    let here = *rest;
    let fixed: [&[u8]; 3] = [
        b"<<<TICKER.MODE.NORMAL>>",
        b"<<<NOW.IN.DIGITS.&.VOLUME.DELETED.MODE>>",
        b"<<<NOW.IN.REPEAT.PRICES.OMITTED.MODE>>",
    ];
    if !fixed.iter().any(|text| take(rest, text)) {
        if take(rest, b"<<<MIN.PRICE.CHGS.OMITTED.NOW") {
            mpv_distance(rest)?;
        } else if take(rest, b"<<<VOLUME.DELETE.LEVEL.IS.NOW") {
            delete_level(rest)?;
        } else {
            return None;
        }
    }
    Some(&here[..here.len() - rest.len()])
}

/// Level × 0.05 with two decimals, levels 1..100, and `>>`.
fn mpv_distance(rest: &mut &[u8]) -> Option<()> {
    let (whole, _) = number(rest, 1);
    let found = take(rest, b",");
    let (fraction, count) = digits(rest, 2);
    let cents = 100 * whole + fraction;
    (found && count == 2 && (5..=500).contains(&cents) && cents % 5 == 0 && take(rest, b">>")).then_some(())
}

/// A level 5,000..100,000 as a full volume, and `SHRS>>`.
fn delete_level(rest: &mut &[u8]) -> Option<()> {
    let (Figures::Plain(level) | Figures::Dotted(level)) = figures(rest)?;
    ((5_000..=100_000).contains(&level) && take(rest, b"SHRS>>")).then_some(())
}
