//! Tables in memory of our own, for programs and tests.

use crate::record::BLOCK;
use crate::tables::Tables;

/// Four owned tables.
#[derive(Clone, Debug, PartialEq, Eq)]
pub struct Memory {
    pub blocks: Vec<u8>,
    pub block_records: Vec<u8>,
    pub file_records: Vec<u8>,
    pub channel_records: Vec<u8>,
}

impl Memory {
    /// Tables of zeros for so many blocks, files and channels.
    pub fn new(blocks: usize, files: usize, channels: usize) -> Memory {
        Memory {
            blocks: vec![0; BLOCK * blocks],
            block_records: vec![0; 4 * blocks],
            file_records: vec![0; 8 * files],
            channel_records: vec![0; 8 * channels],
        }
    }

    /// A prepared store; the counts must be in range.
    pub fn prepared(blocks: usize, files: usize, channels: usize) -> Memory {
        let mut memory = Memory::new(blocks, files, channels);
        memory.lend().prepare().expect("counts in range");
        memory
    }

    /// The tables, lent for calls.
    pub fn lend(&mut self) -> Tables<'_> {
        Tables {
            blocks: &mut self.blocks,
            block_records: &mut self.block_records,
            file_records: &mut self.file_records,
            channel_records: &mut self.channel_records,
        }
    }
}
