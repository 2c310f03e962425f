//! Day lines: the fields of the nine kinds, with refusals 1, 4 and 5. All of 4 is asked before 5.

use crate::conditions::{letter, Letters};
use crate::price::{price, Price, POWERS};
use crate::refusals::{ensure, Refusal};

/// 100 bytes of 32..126.
#[derive(Clone, Copy)]
pub struct Line<'a>(&'a [u8; 100]);

const BLANKS: u64 = u64::from_le_bytes([b' '; 8]);
const ZEROS: u64 = u64::from_le_bytes([b'0'; 8]);

impl<'a> Line<'a> {
    /// None is refusal 1.
    #[inline(always)]
    pub fn new(bytes: &'a [u8]) -> Option<Self> {
        let line: &[u8; 100] = bytes.try_into().ok()?;
        let strange = line.iter().fold(0, |any, &byte| any | u8::from(byte.wrapping_sub(32) > 94));
        (strange == 0).then_some(Line(line))
    }

    /// The byte in a column, counted from 1.
    #[inline(always)]
    pub fn column(&self, column: usize) -> u8 {
        self.0[column - 1]
    }

    /// The N bytes from a column on.
    #[inline(always)]
    pub fn columns<const N: usize>(&self, from: usize) -> [u8; N] {
        self.0[from - 1..from - 1 + N].try_into().unwrap()
    }

    /// Whether the columns from `from` to the end are blank: sixteen at a time, some of them twice.
    #[inline(always)]
    fn blank_from(&self, from: usize) -> bool {
        if from > 85 {
            return self.0[from - 1..].iter().all(|&byte| byte == b' ');
        }
        let marks = |from| u128::from_le_bytes(self.columns(from)) ^ u128::from_le_bytes([b' '; 16]);
        let mut any = marks(85);
        let mut at = from;
        while at < 85 {
            any |= marks(at);
            at += 16;
        }
        any == 0
    }

    /// At most eight columns, right-justified with blanks on their left; the first is the lowest byte.
    #[inline(always)]
    fn right_justified(&self, from: usize, to: usize) -> u64 {
        let text = if to >= 8 {
            u64::from_le_bytes(self.columns(to - 7))
        } else {
            u64::from_le_bytes(self.columns(1)) << (8 * (8 - to))
        };
        if to + 1 - from == 8 {
            return text;
        }
        let outside = u64::MAX >> (8 * (to + 1 - from));
        text & !outside | BLANKS & outside
    }

    /// A number of at most 14 columns: blanks, then digits, no leading zero except 0 alone. None if all is blank.
    #[inline(always)]
    fn number_or_blank(&self, from: usize, to: usize) -> Result<Option<Digits>, Refusal> {
        let middle = from.max(to.saturating_sub(7));
        let low = eight(self.right_justified(middle, to)).ok_or(Refusal::Form)?;
        let high = if from < middle { self.right_justified(from, middle - 1) } else { BLANKS };
        if high == BLANKS {
            if low.count == 0 {
                return Ok(None);
            }
            ensure(low.count == 1 || low.value >= POWERS[low.count - 1], Refusal::Form)?;
            let text = u128::from(low.figures | ZEROS) << 64 | u128::from(ZEROS);
            return Ok(Some(Digits { value: low.value, count: low.count as u8, text }));
        }
        let high = eight(high).ok_or(Refusal::Form)?;
        let whole = low.count == 8 && high.count > 0 && high.value >= POWERS[high.count - 1];
        ensure(whole, Refusal::Form)?;
        let value = high.value * 100_000_000 + low.value;
        let text = u128::from(low.figures | ZEROS) << 64 | u128::from(high.figures | ZEROS);
        Ok(Some(Digits { value, count: high.count as u8 + 8, text }))
    }

    #[inline(always)]
    fn number(&self, from: usize, to: usize) -> Result<Digits, Refusal> {
        self.number_or_blank(from, to)?.ok_or(Refusal::Form)
    }

    /// A number of one column.
    #[inline(always)]
    fn digit(&self, column: usize) -> Result<u8, Refusal> {
        let digit = self.column(column).wrapping_sub(b'0');
        ensure(digit <= 9, Refusal::Form)?;
        Ok(digit)
    }
}

/// A number in its form: its value, how many digits it has, and the digits with leading zeros up to 16,
/// the first in the lowest byte.
#[derive(Clone, Copy)]
pub struct Digits {
    pub value: u64,
    pub count: u8,
    pub text: u128,
}

/// Eight columns of blanks, then digits: how many digits, their figures 0..9 (0 for a blank), and the value.
struct Eight {
    count: usize,
    figures: u64,
    value: u64,
}

/// None if anything else stands there. Bytes are below 128.
#[inline(always)]
fn eight(text: u64) -> Option<Eight> {
    const LIMIT: u64 = u64::from_le_bytes([0x76; 8]);
    const HIGH_BITS: u64 = u64::from_le_bytes([0x80; 8]);
    let figures = text ^ ZEROS;
    // A byte from 10 up reaches its high bit.
    let count = ((figures + LIMIT) & HIGH_BITS).leading_zeros() / 8;
    let before = u64::MAX >> (4 * count) >> (4 * count);
    if (text ^ BLANKS) & before != 0 {
        return None;
    }
    let figures = figures & !before;
    // Pairs, fours, all.
    let pairs = figures.wrapping_mul(10 * 256 + 1) >> 8 & 0x00ff_00ff_00ff_00ff;
    let fours = pairs.wrapping_mul(100 * 65536 + 1) >> 16 & 0x0000_ffff_0000_ffff;
    let value = fours.wrapping_mul((10_000 << 32) + 1) >> 32;
    Some(Eight { count: count as usize, figures, value })
}

fn is_market(byte: u8) -> bool {
    matches!(byte, b'A' | b'B' | b'W' | b'M' | b'C' | b'D' | b'T' | b'N' | b'P' | b'X')
}

/// D: the date as a number yyyymmdd.
pub fn date(line: Line) -> Result<u32, Refusal> {
    let date = line.number(2, 9)?.value as u32;
    ensure(line.blank_from(10), Refusal::Form)?;
    let (year, month, day) = (date / 10_000, date / 100 % 100, date % 100);
    let leap = year % 4 == 0 && (year % 100 != 0 || year % 400 == 0);
    let days = match month {
        1 | 3 | 5 | 7 | 8 | 10 | 12 => 31,
        4 | 6 | 9 | 11 => 30,
        2 => 28 + u32::from(leap),
        _ => 0,
    };
    ensure(year >= 1000 && (1..=days).contains(&day), Refusal::Value)?;
    Ok(date)
}

#[derive(Clone, Copy, PartialEq, Eq, Debug)]
pub enum Network {
    A,
    B,
}

/// S: the entry of a security; root, suffixes and appendage as they stand in their columns.
pub struct Entry {
    pub security: u16,
    pub root: [u8; 6],
    pub suffix: [u8; 7],
    pub temporary: [u8; 4],
    pub appendage: [u8; 2],
    pub unit: u8,
    pub network: Network,
    pub primary: u8,
    pub first_day: bool,
}

pub fn entry(line: Line) -> Result<Entry, Refusal> {
    let security = line.number(2, 5)?.value;
    let root: [u8; 6] = line.columns(6);
    let letters = root.iter().take_while(|byte| byte.is_ascii_uppercase()).count();
    ensure(letters > 0 && root[letters..].iter().all(|&byte| byte == b' '), Refusal::Form)?;
    let unit = line.number(25, 27)?.value;
    let network = match line.column(28) {
        b'A' => Network::A,
        b'B' => Network::B,
        _ => return Err(Refusal::Form),
    };
    let primary = line.column(29);
    ensure(is_market(primary), Refusal::Form)?;
    let first_day = line.digit(30)?;
    ensure(line.blank_from(31), Refusal::Form)?;
    ensure((1..=512).contains(&security), Refusal::Value)?;
    ensure(matches!(unit, 1 | 10 | 25 | 50 | 100), Refusal::Value)?;
    ensure(first_day <= 1, Refusal::Value)?;
    Ok(Entry {
        security: security as u16,
        root,
        suffix: line.columns(12),
        temporary: line.columns(19),
        appendage: line.columns(23),
        unit: unit as u8,
        network,
        primary,
        first_day: first_day == 1,
    })
}

#[derive(Clone, Copy, PartialEq, Eq, Debug)]
pub enum Mode {
    Normal,
    Dvd,
    Rpo,
    Mpv,
}

/// M: the mode.
pub fn mode(line: Line) -> Result<Mode, Refusal> {
    let mode = match line.column(2) {
        b'N' => Mode::Normal,
        b'D' => Mode::Dvd,
        b'R' => Mode::Rpo,
        b'P' => Mode::Mpv,
        _ => return Err(Refusal::Form),
    };
    ensure(line.blank_from(3), Refusal::Form)?;
    Ok(mode)
}

/// V: the volume delete level.
pub fn delete_level(line: Line) -> Result<u32, Refusal> {
    let level = line.number(2, 7)?.value;
    ensure(line.blank_from(8), Refusal::Form)?;
    ensure((5_000..=100_000).contains(&level), Refusal::Value)?;
    Ok(level as u32)
}

/// P: the MPV level.
pub fn mpv_level(line: Line) -> Result<u32, Refusal> {
    let level = line.number(2, 4)?.value;
    ensure(line.blank_from(5), Refusal::Form)?;
    ensure((1..=100).contains(&level), Refusal::Value)?;
    Ok(level as u32)
}

/// Volume to previous last of a T, X or E line, or of one side of a C line.
#[derive(Clone, Copy)]
pub struct Side {
    pub volume: u32,
    pub price: Price,
    /// All that follows is blank; it may be blank without this.
    pub plain: bool,
    pub letters: Letters,
    /// A letter stands twice.
    pub repeated: bool,
    /// Seller days, 0 if blank.
    pub days: u16,
    pub previous: Previous,
}

/// The previous last: both fields blank, one of them, or a price.
#[derive(Clone, Copy)]
pub enum Previous {
    Blank,
    Half,
    Price(Price),
}

/// A side whose fields are in their form; their values are not looked at yet.
struct SideForm {
    volume: Digits,
    n: Digits,
    decimals: u8,
    extras: Option<Extras>,
}

/// The fields that may be blank.
struct Extras {
    letters: Letters,
    repeated: bool,
    days: Option<Digits>,
    previous_n: Option<Digits>,
    previous_decimals: Option<u8>,
}

/// The side whose volume begins in column 7 or 53.
#[inline(always)]
fn side_form(line: Line, from: usize, plain: bool) -> Result<SideForm, Refusal> {
    let volume = line.number(from, from + 8)?;
    let n = line.number(from + 9, from + 22)?;
    let decimals = line.digit(from + 23)?;
    let extras = if plain { None } else { Some(extras(line, from + 24)?) };
    Ok(SideForm { volume, n, decimals, extras })
}

#[inline(never)]
fn extras(line: Line, from: usize) -> Result<Extras, Refusal> {
    let mut letters = Letters::NONE;
    let mut repeated = false;
    let text: [u8; 4] = line.columns(from);
    let count = text.iter().take_while(|&&byte| byte != b' ').count();
    ensure(text[count..].iter().all(|&byte| byte == b' '), Refusal::Form)?;
    for &byte in &text[..count] {
        let letter = letter(byte).ok_or(Refusal::Form)?;
        repeated |= letters.any(letter);
        letters = letters.with(letter);
    }
    let days = line.number_or_blank(from + 4, from + 6)?;
    let previous_n = line.number_or_blank(from + 7, from + 20)?;
    let column = from + 21;
    let previous_decimals = if line.column(column) == b' ' { None } else { Some(line.digit(column)?) };
    Ok(Extras { letters, repeated, days, previous_n, previous_decimals })
}

#[inline(always)]
fn side(form: SideForm) -> Result<Side, Refusal> {
    ensure(form.volume.value >= 1, Refusal::Value)?;
    let mut side = Side {
        volume: form.volume.value as u32,
        price: price(&form.n, form.decimals).ok_or(Refusal::Value)?,
        plain: true,
        letters: Letters::NONE,
        repeated: false,
        days: 0,
        previous: Previous::Blank,
    };
    if let Some(extras) = form.extras {
        side.plain = false;
        side.letters = extras.letters;
        side.repeated = extras.repeated;
        if let Some(days) = extras.days {
            ensure(days.value >= 1, Refusal::Value)?;
            side.days = days.value as u16;
        }
        side.previous = match (extras.previous_n, extras.previous_decimals) {
            (None, None) => Previous::Blank,
            (Some(n), Some(d)) => Previous::Price(price(&n, d).ok_or(Refusal::Value)?),
            (Some(n), None) if n.value >= 1 => Previous::Half,
            (None, Some(d)) if d <= 8 => Previous::Half,
            _ => return Err(Refusal::Value),
        };
    }
    Ok(side)
}

/// T, X, E: security, market, side.
#[inline(always)]
pub fn trade(line: Line) -> Result<(usize, u8, Side), Refusal> {
    let plain = line.blank_from(31);
    let security = line.number(2, 5)?.value;
    let market = line.column(6);
    ensure(is_market(market), Refusal::Form)?;
    let form = side_form(line, 7, plain)?;
    ensure(plain || line.blank_from(53), Refusal::Form)?;
    ensure((1..=512).contains(&security), Refusal::Value)?;
    Ok((security as usize, market, side(form)?))
}

/// C: security, original, correcting trade.
pub fn correction(line: Line) -> Result<(usize, Side, Side), Refusal> {
    let security = line.number(2, 5)?.value;
    ensure(is_market(line.column(6)), Refusal::Form)?;
    let original = side_form(line, 7, false)?;
    let correcting = side_form(line, 53, false)?;
    ensure(line.blank_from(99), Refusal::Form)?;
    ensure((1..=512).contains(&security), Refusal::Value)?;
    Ok((security as usize, side(original)?, side(correcting)?))
}
