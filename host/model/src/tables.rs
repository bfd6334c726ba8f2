//! The four lent tables and the numbers of their records.

use crate::record::{Channel, File, FileNo, Held, BLOCK};

/// The most blocks, files and channels.
pub const MAX_BLOCKS: usize = 128;
pub const MAX_FILES: usize = 64;
pub const MAX_CHANNELS: usize = 16;

/// The tables that the host lends for a call, of any lengths and contents.
pub struct Tables<'a> {
    pub blocks: &'a mut [u8],
    pub block_records: &'a mut [u8],
    pub file_records: &'a mut [u8],
    pub channel_records: &'a mut [u8],
}

/// How many blocks, files and channels there are.
#[derive(Clone, Copy, Debug, PartialEq, Eq)]
pub struct Counts {
    pub blocks: usize,
    pub files: usize,
    pub channels: usize,
}

impl Tables<'_> {
    /// The counts that the table lengths agree with, in range; else none.
    pub(crate) fn counts(&self) -> Option<Counts> {
        let blocks = self.block_records.len() / 4;
        let files = self.file_records.len() / 8;
        let channels = self.channel_records.len() / 8;
        let agree = self.blocks.len() == BLOCK * blocks
            && self.block_records.len() == 4 * blocks
            && self.file_records.len() == 8 * files
            && self.channel_records.len() == 8 * channels
            && (1..=MAX_BLOCKS).contains(&blocks)
            && (1..=MAX_FILES).contains(&files)
            && (1..=MAX_CHANNELS).contains(&channels);
        agree.then_some(Counts {
            blocks,
            files,
            channels,
        })
    }

    pub(crate) fn block(&self, block: u8) -> &[u8; BLOCK] {
        &self.blocks.as_chunks().0[block as usize]
    }

    pub(crate) fn block_mut(&mut self, block: u8) -> &mut [u8; BLOCK] {
        &mut self.blocks.as_chunks_mut().0[block as usize]
    }

    pub(crate) fn set_block_record(&mut self, block: u8, held: Option<Held>) {
        self.block_records.as_chunks_mut().0[block as usize] = held.map_or([0; 4], Held::encode);
    }

    pub(crate) fn set_file_record(&mut self, no: FileNo, file: Option<File>) {
        self.file_records.as_chunks_mut().0[no.index()] = file.map_or([0; 8], File::encode);
    }

    pub(crate) fn set_channel_record(&mut self, at: usize, channel: Option<Channel>) {
        self.channel_records.as_chunks_mut().0[at] = channel.map_or([0; 8], Channel::encode);
    }
}
