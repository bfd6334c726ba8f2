//! Which reports of which calls were reached.

use std::fmt;

use model::Call;

/// The calls in their order, and the reports that each can give.
const POSSIBLE: [(&str, &[usize]); 15] = [
    ("prepare", &[0, 1]),
    ("create", &[0, 1, 2, 4, 5, 6, 8, 9, 10]),
    ("open", &[0, 1, 2, 4, 5]),
    ("close", &[0, 1, 3]),
    ("read", &[0, 1, 3]),
    ("write", &[0, 1, 3, 6, 9, 10]),
    ("seek", &[0, 1, 3, 11]),
    ("fstat", &[0, 1, 3]),
    ("link", &[0, 1, 2, 4, 6, 9, 10]),
    ("unlink", &[0, 1, 2, 4, 6]),
    ("move", &[0, 1, 2, 4, 6, 9, 10]),
    ("ls", &[0, 1, 2, 4, 7, 14]),
    ("mkdir", &[0, 1, 2, 4, 8, 9, 10, 12]),
    ("rmdir", &[0, 1, 2, 4, 7, 13, 15]),
    ("room", &[0, 1]),
];

/// How often each report of each call came.
#[derive(Default)]
pub struct Reached {
    counts: [[usize; 16]; 15],
}

impl Reached {
    pub fn note(&mut self, call: &Call, report: u32) {
        self.counts[row_of(call)][report as usize] += 1;
    }

    /// How many calls were made.
    pub fn calls(&self) -> usize {
        self.counts.iter().flatten().sum()
    }

    /// How many calls were accepted.
    pub fn accepted(&self) -> usize {
        self.counts.iter().map(|reports| reports[0]).sum()
    }

    /// Every possible report of every call came, and no other.
    pub fn assert_all(&self) {
        for ((name, possible), counts) in POSSIBLE.iter().zip(&self.counts) {
            let came: Vec<_> = (0..16).filter(|&report| counts[report] > 0).collect();
            assert_eq!(came, *possible, "reports of {name}\n{self}");
        }
    }
}

impl fmt::Display for Reached {
    /// A line a call, a column a report.
    fn fmt(&self, f: &mut fmt::Formatter) -> fmt::Result {
        write!(f, "{:8}", "")?;
        (0..16).try_for_each(|report| write!(f, "{report:>8}"))?;
        for ((name, _), counts) in POSSIBLE.iter().zip(&self.counts) {
            write!(f, "\n{name:8}")?;
            counts
                .iter()
                .try_for_each(|count| write!(f, "{count:>8}"))?;
        }
        Ok(())
    }
}

/// The place of a call in the order of calls.
pub fn row_of(call: &Call) -> usize {
    match call {
        Call::Prepare => 0,
        Call::Create(_) => 1,
        Call::Open(_) => 2,
        Call::Close(_) => 3,
        Call::Read(_) => 4,
        Call::Write(..) => 5,
        Call::Seek(..) => 6,
        Call::Fstat(_) => 7,
        Call::Link(..) => 8,
        Call::Unlink(_) => 9,
        Call::Move(..) => 10,
        Call::Ls(_) => 11,
        Call::Mkdir(_) => 12,
        Call::Rmdir(_) => 13,
        Call::Room => 14,
    }
}
