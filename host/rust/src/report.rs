//! Why a call was refused.

use core::error::Error;
use core::fmt;

/// A report other than Ok; its number is the report's.
#[derive(Clone, Copy, Debug, PartialEq, Eq, Hash)]
#[repr(u8)]
pub enum Report {
    /// The tables are not a sound store; for prepare, their lengths are wrong.
    NotAStore = 1,
    /// A name is badly written, or mkdir was given 8 syllables.
    BadName = 2,
    /// The channel number is out of range or free.
    NoSuchCid = 3,
    /// The name is missing; for a new name, its directory is.
    NoSuchName = 4,
    /// No channel is free.
    NoFreeCids = 5,
    /// The call takes ordinary files only.
    IsDirectory = 6,
    /// The call takes directories only.
    NotDirectory = 7,
    /// No file number is free.
    NoFreeFids = 8,
    /// More new blocks are needed than are free.
    NoRoom = 9,
    /// A file or directory would pass 32,768 bytes.
    TooBig = 10,
    /// The mode is above 5, or the position above 16,777,215.
    BadSeek = 11,
    /// The name that mkdir would make exists.
    NameInUse = 12,
    /// The directory has names.
    NotEmpty = 13,
    /// The listing buffer is too small.
    OutShort = 14,
    /// The directory is the root or has a channel.
    InUse = 15,
}

impl Report {
    const ALL: [Report; 15] = [
        Report::NotAStore,
        Report::BadName,
        Report::NoSuchCid,
        Report::NoSuchName,
        Report::NoFreeCids,
        Report::IsDirectory,
        Report::NotDirectory,
        Report::NoFreeFids,
        Report::NoRoom,
        Report::TooBig,
        Report::BadSeek,
        Report::NameInUse,
        Report::NotEmpty,
        Report::OutShort,
        Report::InUse,
    ];

    /// The report of a number from 1 to 15.
    ///
    /// ```
    /// use filestore::Report;
    ///
    /// assert_eq!(Report::of(9), Some(Report::NoRoom));
    /// assert_eq!(Report::of(0), None);
    /// ```
    pub fn of(number: u32) -> Option<Report> {
        let at = usize::try_from(number).ok()?.checked_sub(1)?;
        Report::ALL.get(at).copied()
    }

    /// The report's number, 1 to 15.
    pub fn number(self) -> u32 {
        self as u32
    }
}

impl fmt::Display for Report {
    /// The report in words.
    ///
    /// ```
    /// assert_eq!(filestore::Report::NoFreeCids.to_string(), "no free channel");
    /// ```
    fn fmt(&self, f: &mut fmt::Formatter) -> fmt::Result {
        f.write_str(match self {
            Report::NotAStore => "the tables are not a store",
            Report::BadName => "the name is badly written",
            Report::NoSuchCid => "no such channel",
            Report::NoSuchName => "no such name",
            Report::NoFreeCids => "no free channel",
            Report::IsDirectory => "it is a directory",
            Report::NotDirectory => "it is not a directory",
            Report::NoFreeFids => "no free file number",
            Report::NoRoom => "not enough free blocks",
            Report::TooBig => "it would be too big",
            Report::BadSeek => "no such place to seek",
            Report::NameInUse => "the name is in use",
            Report::NotEmpty => "the directory is not empty",
            Report::OutShort => "the buffer is too short",
            Report::InUse => "the directory is in use",
        })
    }
}

impl Error for Report {}
