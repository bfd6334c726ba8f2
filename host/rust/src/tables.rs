//! Tables of a program's own.

use alloc::boxed::Box;
use alloc::vec;

use crate::store::Store;

/// Four tables on the heap. Their bytes are the whole store: saving them saves
/// it.
#[derive(Clone, Debug, PartialEq, Eq)]
pub struct Tables {
    /// 512 bytes a block.
    pub blocks: Box<[u8]>,
    /// 4 bytes a block.
    pub block_records: Box<[u8]>,
    /// 8 bytes a file.
    pub file_records: Box<[u8]>,
    /// 8 bytes a channel.
    pub channel_records: Box<[u8]>,
}

impl Tables {
    /// Tables of zeros for so many blocks (1 to 128), files (1 to 64) and
    /// channels (1 to 16). They are no store before [`Store::prepare`].
    pub fn new(blocks: usize, files: usize, channels: usize) -> Tables {
        let zeros = |length| vec![0; length].into_boxed_slice();
        Tables {
            blocks: zeros(512 * blocks),
            block_records: zeros(4 * blocks),
            file_records: zeros(8 * files),
            channel_records: zeros(8 * channels),
        }
    }

    /// The tables, lent for calls.
    pub fn lend(&mut self) -> Store<'_> {
        Store {
            blocks: &mut self.blocks,
            block_records: &mut self.block_records,
            file_records: &mut self.file_records,
            channel_records: &mut self.channel_records,
        }
    }
}
