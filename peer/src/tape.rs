//! Tape characters: the bytes of one print, written into a room that is larger than any print.

/// No print is longer than 197 bytes; texts of fixed width may write up to 24 bytes past their end.
pub const ROOM: usize = 256;

/// One print under way. Bytes of the room after `len` are free.
pub struct Tape<'a> {
    room: &'a mut [u8; ROOM],
    len: usize,
}

impl<'a> Tape<'a> {
    pub fn new(room: &'a mut [u8; ROOM]) -> Self {
        Tape { room, len: 0 }
    }

    #[inline(always)]
    pub fn len(&self) -> usize {
        self.len
    }

    pub fn is_empty(&self) -> bool {
        self.len == 0
    }

    #[inline(always)]
    pub fn byte(&mut self, byte: u8) {
        self.room[self.len] = byte;
        self.len += 1;
    }

    /// A fixed text.
    #[inline(always)]
    pub fn text<const N: usize>(&mut self, text: &[u8; N]) {
        self.room[self.len..self.len + N].copy_from_slice(text);
        self.len += N;
    }

    /// The first `len` of N bytes; the others land behind the print.
    #[inline(always)]
    pub fn start_of<const N: usize>(&mut self, text: &[u8; N], len: usize) {
        self.room[self.len..self.len + N].copy_from_slice(text);
        self.len += len;
    }

    /// A number below 10,000 in base ten.
    #[inline(always)]
    pub fn small(&mut self, n: u32) {
        debug_assert!(n < 10_000);
        let len = 1 + usize::from(n > 9) + usize::from(n > 99) + usize::from(n > 999);
        let four = u32::from_le_bytes(four_digits(n)) >> (8 * (4 - len));
        self.start_of(&four.to_le_bytes(), len);
    }

    /// Three digits, leading zeros included.
    #[inline(always)]
    pub fn three(&mut self, n: u32) {
        let [_, a, b, c] = four_digits(n);
        self.text(&[a, b, c]);
    }
}

#[inline(always)]
fn four_digits(n: u32) -> [u8; 4] {
    let digit = |n: u32| b'0' + (n % 10) as u8;
    [digit(n / 1000), digit(n / 100), digit(n / 10), digit(n)]
}
