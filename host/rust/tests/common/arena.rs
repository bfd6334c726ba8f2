//! Tables with guards between them, at any alignment.

use std::ops::Range;

use model::{Memory, Tables};

/// What guards hold; nothing may change them.
const GUARD: u8 = 0xc3;
/// Bytes of a guard.
const WIDTH: usize = 24;

/// The four tables in one piece of memory, guards before, between and after.
pub struct Arena {
    bytes: Vec<u8>,
    at: [Range<usize>; 4],
}

impl Arena {
    /// A copy of tables, `shift` bytes further on.
    pub fn new(memory: &Memory, shift: usize) -> Arena {
        let mut bytes = vec![GUARD; shift];
        let at = tables_of(memory).map(|table| {
            bytes.extend([GUARD; WIDTH]);
            let start = bytes.len();
            bytes.extend_from_slice(table);
            start..bytes.len()
        });
        bytes.extend([GUARD; WIDTH]);
        Arena { bytes, at }
    }

    /// The tables, lent for a call.
    pub fn lend(&mut self) -> Tables<'_> {
        let [b, r, f, c] = &self.at;
        let (rest, channels) = self.bytes.split_at_mut(c.start);
        let (rest, files) = rest.split_at_mut(f.start);
        let (blocks, records) = rest.split_at_mut(r.start);
        Tables {
            blocks: &mut blocks[b.clone()],
            block_records: &mut records[..r.len()],
            file_records: &mut files[..f.len()],
            channel_records: &mut channels[..c.len()],
        }
    }

    /// Whether the tables hold the same bytes, and the guards are whole.
    pub fn is_like(&self, memory: &Memory) -> bool {
        let mut end = 0;
        let same = self.at.iter().zip(tables_of(memory)).all(|(at, table)| {
            let guard = end..at.start;
            end = at.end;
            self.is_guard(guard) && self.bytes[at.clone()] == *table
        });
        same && self.is_guard(end..self.bytes.len())
    }

    /// Where the tables and the guards first differ from what they should be.
    pub fn difference(&self, memory: &Memory) -> String {
        let should = Arena::new(memory, self.at[0].start - WIDTH);
        let pairs = self.bytes.iter().zip(&should.bytes);
        let Some(at) = pairs.into_iter().position(|(is, should)| is != should) else {
            return String::from("no table differs");
        };
        let names = ["blocks", "block records", "file records", "channel records"];
        let table = self.at.iter().position(|range| range.contains(&at));
        let place = table.map_or(String::from("a guard"), |table| {
            format!("{} at {}", names[table], at - self.at[table].start)
        });
        let (is, should) = (self.bytes[at], should.bytes[at]);
        format!("{place}: library {is}, model {should}")
    }

    fn is_guard(&self, range: Range<usize>) -> bool {
        self.bytes[range].iter().all(|&b| b == GUARD)
    }
}

fn tables_of(memory: &Memory) -> [&[u8]; 4] {
    [
        &memory.blocks,
        &memory.block_records,
        &memory.file_records,
        &memory.channel_records,
    ]
}
