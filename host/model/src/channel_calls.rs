//! Calls that take a channel number.

use crate::record::{Channel, Kind, MAX_POSITION};
use crate::refusal::Refusal;
use crate::store::Store;
use crate::tables::Tables;

/// What fstat answers.
#[derive(Clone, Copy, Debug, PartialEq, Eq)]
pub struct Stat {
    pub length: u32,
    pub file: u16,
    pub kind: Kind,
}

impl Tables<'_> {
    /// Frees a channel, and its file if that was all it had.
    pub fn close(&mut self, cid: u32) -> Result<(), Refusal> {
        let mut store = Store::decode(self)?;
        let (at, channel) = store.channel(cid)?;
        self.set_channel(&mut store, at, None);
        self.free_if_lost(&mut store, channel.file);
        Ok(())
    }

    /// Reads from the position on, as far as the file and the buffer go;
    /// answers the count.
    pub fn read(&mut self, cid: u32, buffer: &mut [u8]) -> Result<u32, Refusal> {
        let mut store = Store::decode(self)?;
        let (at, channel) = store.channel(cid)?;
        let left = store
            .file(channel.file)
            .length
            .saturating_sub(channel.position);
        let count = buffer.len().min(left as usize);
        self.copy_out(
            &store,
            channel.file,
            channel.position as usize,
            &mut buffer[..count],
        );
        let position = channel.position + count as u32;
        self.move_channel(&mut store, at, channel, position);
        Ok(count as u32)
    }

    /// Writes at the position, zeros in any gap before it; answers the count.
    pub fn write(&mut self, cid: u32, data: &[u8]) -> Result<u32, Refusal> {
        let mut store = Store::decode(self)?;
        let (at, channel) = store.channel(cid)?;
        let file = store.file(channel.file);
        if file.is_directory() {
            return Err(Refusal::IsDirectory);
        }
        let start = channel.position as usize;
        let end = start.checked_add(data.len()).ok_or(Refusal::TooBig)?;
        self.grow(&mut store, channel.file, end)?;
        self.zero(&store, channel.file, file.length as usize, start);
        self.copy_in(&store, channel.file, start, data);
        let position = end as u32;
        self.move_channel(&mut store, at, channel, position);
        Ok(data.len() as u32)
    }

    /// Moves the position; answers the new one.
    pub fn seek(&mut self, cid: u32, mode: u32, n: u32) -> Result<u32, Refusal> {
        let mut store = Store::decode(self)?;
        let (at, channel) = store.channel(cid)?;
        let length = store.file(channel.file).length;
        let (base, unit) = match mode {
            0 => (0, 1),
            1 => (channel.position, 1),
            2 => (length, 1),
            3 => (0, 512),
            4 => (channel.position, 512),
            5 => (length, 512),
            _ => return Err(Refusal::BadSeek),
        };
        let position = u64::from(base) + unit * u64::from(n);
        if position > u64::from(MAX_POSITION) {
            return Err(Refusal::BadSeek);
        }
        let position = position as u32;
        self.move_channel(&mut store, at, channel, position);
        Ok(position)
    }

    /// The length, number and kind of a channel's file.
    pub fn fstat(&self, cid: u32) -> Result<Stat, Refusal> {
        let store = Store::decode(self)?;
        let (_, channel) = store.channel(cid)?;
        let file = store.file(channel.file);
        Ok(Stat {
            length: file.length,
            file: channel.file.number(),
            kind: file.kind,
        })
    }

    /// Sets a channel's position.
    fn move_channel(&mut self, store: &mut Store, at: usize, channel: Channel, position: u32) {
        let moved = Channel {
            position,
            ..channel
        };
        self.set_channel(store, at, Some(moved));
    }
}
