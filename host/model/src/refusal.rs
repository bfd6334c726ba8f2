//! Why a call was refused.

/// A report other than Ok; its number is the report's.
#[derive(Clone, Copy, Debug, PartialEq, Eq)]
#[repr(u8)]
pub enum Refusal {
    NotAStore = 1,
    BadName = 2,
    NoSuchCid = 3,
    NoSuchName = 4,
    NoFreeCids = 5,
    IsDirectory = 6,
    NotDirectory = 7,
    NoFreeFids = 8,
    NoRoom = 9,
    TooBig = 10,
    BadSeek = 11,
    NameInUse = 12,
    NotEmpty = 13,
    OutShort = 14,
    InUse = 15,
}

impl Refusal {
    /// The report's number, 1 to 15.
    pub fn number(self) -> u8 {
        self as u8
    }
}
