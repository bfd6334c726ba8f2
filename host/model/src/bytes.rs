//! Bytes of files in their blocks, and changes of files and directories.
//!
//! Each change is made in the tables and in the decoded store alike.

use std::ops::Range;

use crate::record::{
    blocks_for, Channel, Entry, File, FileNo, Held, StoredName, BLOCK, MAX_LENGTH,
};
use crate::refusal::Refusal;
use crate::store::{Link, Store};
use crate::tables::Tables;

/// The parts of blocks that bytes `from..to` of a file lie in, by place.
fn parts(from: usize, to: usize) -> impl Iterator<Item = (usize, Range<usize>)> {
    let places = if from < to {
        from / BLOCK..to.div_ceil(BLOCK)
    } else {
        0..0
    };
    places.map(move |place| {
        let start = place * BLOCK;
        (place, from.max(start) - start..(to - start).min(BLOCK))
    })
}

impl Tables<'_> {
    /// Copies bytes of a file, which it must have, from `at` on.
    pub(crate) fn copy_out(&self, store: &Store, no: FileNo, at: usize, mut out: &mut [u8]) {
        let blocks = store.blocks_of(no);
        for (place, part) in parts(at, at + out.len()) {
            let (now, later) = out.split_at_mut(part.len());
            now.copy_from_slice(&self.block(blocks[place])[part]);
            out = later;
        }
    }

    /// Overlays bytes of a file, which it must have, from `at` on.
    pub(crate) fn copy_in(&mut self, store: &Store, no: FileNo, at: usize, mut data: &[u8]) {
        let blocks = store.blocks_of(no);
        for (place, part) in parts(at, at + data.len()) {
            let (now, later) = data.split_at(part.len());
            self.block_mut(blocks[place])[part].copy_from_slice(now);
            data = later;
        }
    }

    /// Zeros bytes `from..to` of a file, which it must have.
    pub(crate) fn zero(&mut self, store: &Store, no: FileNo, from: usize, to: usize) {
        let blocks = store.blocks_of(no);
        for (place, part) in parts(from, to) {
            self.block_mut(blocks[place])[part].fill(0);
        }
    }

    /// Makes a file at least `length` long, its new bytes as they lay;
    /// TooBig or NoRoom before anything changes.
    pub(crate) fn grow(
        &mut self,
        store: &mut Store,
        no: FileNo,
        length: usize,
    ) -> Result<(), Refusal> {
        let file = store.file(no);
        if length <= file.length as usize {
            return Ok(());
        }
        if length > MAX_LENGTH as usize {
            return Err(Refusal::TooBig);
        }
        let length = length as u32;
        let new_places = blocks_for(file.length)..blocks_for(length);
        if new_places.len() > store.free_blocks.count_ones() as usize {
            return Err(Refusal::NoRoom);
        }
        for place in new_places {
            let block = store.free_blocks.trailing_zeros() as u8;
            store.free_blocks &= !(1 << block);
            store.places[no.index()][place] = block;
            self.set_block_record(
                block,
                Some(Held {
                    owner: no,
                    place: place as u16,
                }),
            );
        }
        self.set_file(store, no, Some(File { length, ..file }));
        Ok(())
    }

    /// Takes every block away from a file and empties it.
    pub(crate) fn empty(&mut self, store: &mut Store, no: FileNo) {
        for &block in store.blocks_of(no) {
            self.set_block_record(block, None);
        }
        let freed = store
            .blocks_of(no)
            .iter()
            .fold(0, |freed, &block| freed | 1 << block);
        store.free_blocks |= freed;
        let file = store.file(no);
        self.set_file(store, no, Some(File { length: 0, ..file }));
    }

    pub(crate) fn free(&mut self, store: &mut Store, no: FileNo) {
        self.empty(store, no);
        self.set_file(store, no, None);
    }

    /// Frees an ordinary file that has neither a name nor a channel.
    pub(crate) fn free_if_lost(&mut self, store: &mut Store, no: FileNo) {
        let named = store.names[no.index()] > 0;
        if !named && !store.file(no).is_directory() && !store.has_channel(no) {
            self.free(store, no);
        }
    }

    pub(crate) fn set_file(&mut self, store: &mut Store, no: FileNo, file: Option<File>) {
        store.files[no.index()] = file;
        self.set_file_record(no, file);
    }

    pub(crate) fn set_channel(&mut self, store: &mut Store, at: usize, channel: Option<Channel>) {
        store.channels[at] = channel;
        self.set_channel_record(at, channel);
    }

    /// Puts a new record in the first blank one of a directory or at its end;
    /// TooBig or NoRoom before anything changes.
    pub(crate) fn add_entry(
        &mut self,
        store: &mut Store,
        dir: FileNo,
        name: StoredName,
        file: FileNo,
    ) -> Result<(), Refusal> {
        let count = store.file(dir).length as usize / Entry::SIZE;
        let blank = store
            .entries(self, dir)
            .position(|entry| entry == Entry::BLANK);
        let at = blank.unwrap_or(count);
        self.grow(store, dir, (at + 1) * Entry::SIZE)?;
        store.names[file.index()] += 1;
        self.put_entry(store, dir, at, Entry::new(file, name));
        Ok(())
    }

    /// Makes a record name another file.
    pub(crate) fn replace_entry(&mut self, store: &mut Store, link: Link, file: FileNo) {
        store.names[link.file.index()] -= 1;
        store.names[file.index()] += 1;
        self.put_entry(store, link.dir, link.at, Entry::new(file, link.name));
    }

    /// Makes a record blank.
    pub(crate) fn blank_entry(&mut self, store: &mut Store, link: Link) {
        store.names[link.file.index()] -= 1;
        self.put_entry(store, link.dir, link.at, Entry::BLANK);
    }

    fn put_entry(&mut self, store: &Store, dir: FileNo, at: usize, entry: Entry) {
        self.copy_in(store, dir, at * Entry::SIZE, &entry.encode());
    }
}

#[cfg(test)]
mod tests {
    use super::parts;

    #[test]
    fn parts_of_a_range() {
        let all = |from, to| parts(from, to).collect::<Vec<_>>();
        assert_eq!(all(0, 0), []);
        assert_eq!(all(700, 700), []);
        assert_eq!(all(510, 1025), [(0, 510..512), (1, 0..512), (2, 0..1)]);
        assert_eq!(all(512, 1024), [(1, 0..512)]);
    }
}
