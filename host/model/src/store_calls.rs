//! Calls on the store as a whole: prepare and room.

use crate::record::{File, FileNo};
use crate::refusal::Refusal;
use crate::store::Store;
use crate::tables::Tables;

/// What is free.
#[derive(Clone, Copy, Debug, PartialEq, Eq)]
pub struct Room {
    pub blocks: u32,
    pub files: u32,
    pub channels: u32,
}

impl Tables<'_> {
    /// Makes an empty store, whatever the tables held; blocks keep their bytes.
    pub fn prepare(&mut self) -> Result<(), Refusal> {
        self.counts().ok_or(Refusal::NotAStore)?;
        self.block_records.fill(0);
        self.file_records.fill(0);
        self.channel_records.fill(0);
        self.set_file_record(FileNo::ROOT, Some(File::directory(0)));
        Ok(())
    }

    /// Counts free blocks, file numbers and channels.
    pub fn room(&self) -> Result<Room, Refusal> {
        let store = Store::decode(self)?;
        let files_used = store.files.iter().flatten().count();
        let channels_used = store.channels.iter().flatten().count();
        Ok(Room {
            blocks: store.free_blocks.count_ones(),
            files: (store.counts.files - files_used) as u32,
            channels: (store.counts.channels - channels_used) as u32,
        })
    }
}
