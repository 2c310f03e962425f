//! Lines not taken: the numbers of the document's table. The checks stand where their fields are read.

#[derive(Clone, Copy, PartialEq, Eq, Debug)]
#[repr(u8)]
pub enum Refusal {
    Bytes = 1,
    Kind = 2,
    NoDay = 3,
    Form = 4,
    Value = 5,
    NotEntered = 6,
    InUse = 7,
    Unlisted = 8,
    SameName = 9,
    Letters = 10,
    Companion = 11,
    Date = 12,
    Room = 13,
    NoPrint = 14,
}

/// `refusal` unless `holds`.
#[inline(always)]
pub fn ensure(holds: bool, refusal: Refusal) -> Result<(), Refusal> {
    if holds {
        Ok(())
    } else {
        Err(refusal)
    }
}
