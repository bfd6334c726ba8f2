//! Every call as one type, and answers in numbers.

use crate::record::StoredName;
use crate::refusal::Refusal;
use crate::tables::Tables;

/// A call and what it is given, beside the tables and a lent buffer.
#[derive(Clone, Copy, Debug, PartialEq, Eq)]
pub enum Call<'a> {
    Prepare,
    Create(&'a [u8]),
    Open(&'a [u8]),
    Close(u32),
    Read(u32),
    Write(u32, &'a [u8]),
    Seek(u32, u32, u32),
    Fstat(u32),
    Link(&'a [u8], &'a [u8]),
    Unlink(&'a [u8]),
    Move(&'a [u8], &'a [u8]),
    Ls(&'a [u8]),
    Mkdir(&'a [u8]),
    Rmdir(&'a [u8]),
    Room,
}

/// The most numbers that a call answers beside its report.
const MOST: usize = 3;

/// A call's report and numbers; a refusal has every other number zero.
#[derive(Clone, Copy, Debug, PartialEq, Eq)]
pub struct Answer {
    pub report: u8,
    values: [u32; MOST],
    width: usize,
}

impl Answer {
    /// The numbers after the report.
    pub fn values(&self) -> &[u32] {
        &self.values[..self.width]
    }

    pub fn is_ok(&self) -> bool {
        self.report == 0
    }

    fn of<const N: usize>(result: Result<[u32; N], Refusal>) -> Answer {
        let mut values = [0; MOST];
        let report = match result {
            Ok(numbers) => {
                values[..N].copy_from_slice(&numbers);
                0
            }
            Err(refusal) => refusal.number(),
        };
        Answer {
            report,
            values,
            width: N,
        }
    }
}

impl Call<'_> {
    /// Makes the call. Only read and ls look at the buffer.
    pub fn perform(&self, tables: &mut Tables, buffer: &mut [u8]) -> Answer {
        let none = |()| [];
        let one = |number| [number];
        match *self {
            Call::Prepare => Answer::of(tables.prepare().map(none)),
            Call::Create(name) => Answer::of(tables.create(name).map(one)),
            Call::Open(name) => Answer::of(tables.open(name).map(one)),
            Call::Close(cid) => Answer::of(tables.close(cid).map(none)),
            Call::Read(cid) => Answer::of(tables.read(cid, buffer).map(one)),
            Call::Write(cid, data) => Answer::of(tables.write(cid, data).map(one)),
            Call::Seek(cid, mode, n) => Answer::of(tables.seek(cid, mode, n).map(one)),
            Call::Fstat(cid) => Answer::of(
                tables
                    .fstat(cid)
                    .map(|s| [s.length, u32::from(s.file), s.kind as u32]),
            ),
            Call::Link(old, new) => Answer::of(tables.link(old, new).map(none)),
            Call::Unlink(name) => Answer::of(tables.unlink(name).map(none)),
            Call::Move(old, new) => Answer::of(tables.r#move(old, new).map(none)),
            Call::Ls(name) => Answer::of(tables.ls(name, buffer).map(one)),
            Call::Mkdir(name) => Answer::of(tables.mkdir(name).map(none)),
            Call::Rmdir(name) => Answer::of(tables.rmdir(name).map(none)),
            Call::Room => Answer::of(tables.room().map(|r| [r.blocks, r.files, r.channels])),
        }
    }

    /// How many bytes the call put in the buffer.
    pub fn filled(&self, answer: &Answer) -> usize {
        match self {
            Call::Read(_) => answer.values[0] as usize,
            Call::Ls(_) => StoredName::SIZE * answer.values[0] as usize,
            _ => 0,
        }
    }
}
