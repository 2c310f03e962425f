//! Names (001, 3.2, appendices C, D): refusal 8, and the names as they stand on the tape.

use crate::lines::{Entry, Network};
use crate::refusals::{ensure, Refusal};
use crate::tape::Tape;

/// At most 6 + 6 + 5 + 3 bytes; the bytes after `len` are 0.
#[derive(Clone, Copy, PartialEq, Eq, Hash)]
pub struct Name {
    text: [u8; 24],
    len: u8,
}

impl Name {
    pub const NONE: Name = Name { text: [0; 24], len: 0 };

    fn push(&mut self, text: &[u8]) {
        let len = usize::from(self.len);
        self.text[len..len + text.len()].copy_from_slice(text);
        self.len += text.len() as u8;
    }

    /// A part after the root, with its letter dot; a blank one adds nothing.
    fn push_part(&mut self, part: &[u8]) {
        match part.first() {
            None => return,
            Some(b'p' | b'r' | b'w') => {}
            Some(_) => self.push(b"."),
        }
        self.push(part);
    }

    #[inline(always)]
    pub fn write(&self, tape: &mut Tape) {
        tape.start_of(&self.text, usize::from(self.len));
    }
}

/// A security's name with and without its temporary suffix; the same if that is blank.
#[derive(Clone, Copy)]
pub struct Names {
    pub plain: Name,
    pub temporary: Name,
}

impl Names {
    pub const NONE: Names = Names { plain: Name::NONE, temporary: Name::NONE };

    /// Refusal 8 if a part is not a listed text.
    pub fn new(entry: &Entry) -> Result<Names, Refusal> {
        let root = trimmed(&entry.root);
        let suffix = trimmed(&entry.suffix);
        let temporary = trimmed(&entry.temporary);
        let appendage = trimmed(&entry.appendage);
        let own: &[u8] = match entry.network {
            Network::A => b"BC",
            Network::B => b"DL",
        };
        let lawful = !is_reserved(root)
            && (suffix.is_empty() || is_suffix(suffix))
            && (temporary.is_empty() || is_temporary(temporary))
            && (appendage.is_empty() || appendage == own);
        ensure(lawful, Refusal::Unlisted)?;
        let mut names = Names::NONE;
        for (name, temporary) in [(&mut names.plain, &b""[..]), (&mut names.temporary, temporary)] {
            name.push(root);
            name.push_part(suffix);
            name.push_part(temporary);
            name.push_part(appendage);
        }
        Ok(names)
    }

    /// Whether there is a temporary suffix.
    pub fn differ(&self) -> bool {
        self.plain.len != self.temporary.len
    }
}

/// A field without the blanks at its end.
fn trimmed(field: &[u8]) -> &[u8] {
    let len = field.iter().rposition(|&byte| byte != b' ').map_or(0, |last| last + 1);
    &field[..len]
}

pub fn is_reserved(root: &[u8]) -> bool {
    matches!(root, b"SHRS" | b"RULE" | b"SELLER")
}

/// What stands after the root of a name as it is on the tape.
pub struct Parts {
    /// It can stand without a temporary suffix.
    pub plain: bool,
    /// The network that its appendage is of.
    pub network: Option<Network>,
}

/// None if no name goes on so after its root. No suffix ends as an appendage does.
pub fn undivided(parts: &[u8]) -> Option<Parts> {
    let (parts, network) = if let Some(before) = parts.strip_suffix(b".BC") {
        (before, Some(Network::A))
    } else if let Some(before) = parts.strip_suffix(b".DL") {
        (before, Some(Network::B))
    } else {
        (parts, None)
    };
    let plain = is_suffix_or_blank(parts);
    let lawful = plain
        || parts
            .iter()
            .rposition(|&byte| byte == b'.')
            .is_some_and(|dot| is_temporary(&parts[dot + 1..]) && is_suffix_or_blank(&parts[..dot]));
    lawful.then_some(Parts { plain, network })
}

/// A suffix with its letter dot, or nothing.
fn is_suffix_or_blank(text: &[u8]) -> bool {
    match text {
        [] => true,
        [b'p' | b'r' | b'w', ..] => is_suffix(text),
        [b'.', suffix @ ..] => !matches!(suffix, [b'p' | b'r' | b'w', ..]) && is_suffix(suffix),
        _ => false,
    }
}

/// Each of them has a letter dot before it and none inside.
fn is_temporary(text: &[u8]) -> bool {
    matches!(text, b"XD" | b"XDIS" | b"Xr" | b"N" | b"XI")
}

#[rustfmt::skip]
fn is_suffix(text: &[u8]) -> bool {
    match text {
        b"A" | b"A.CL" | b"A.CV" | b"Aw" | b"A.N" | b"B" | b"B.CL" | b"B.CV" | b"Bw" | b"B.N" | b"CL" | b"CT" | b"CV"
        | b"CVR" | b"CV.CL" | b"EC" | b"F.N" | b"PP" | b"PT.CL" | b"SC" | b"SP" | b"SD" | b"TT" | b"U" | b"VR" | b"WD"
        | b"WS" | b"W.WS" | b"WS.A" | b"WS.B" | b"WS.N" | b"WSw" | b"XW" | b"r" | b"rw" | b"w" => true,
        b"p" | b"pw" | b"pCL" | b"pCV" | b"pCV.CL" | b"pWD" => true,
        [b'p', b'C', b'A'..=b'K' | b'M'..=b'S'] => true,
        [b'p', b'A'..=b'Z', rest @ ..] => matches!(rest, b"" | b".CV" | b".CL" | b"w"),
        _ => false,
    }
}
