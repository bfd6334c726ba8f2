//! Decoding the tables, which is the test whether a store is sound.
//!
//! Each function is one rule and answers `None` where it is broken.

use crate::record::{
    blocks_for, Channel, Entry, File, FileNo, Kind, MAX_DEPTH, MAX_LENGTH, MAX_PLACES, MAX_POSITION,
};
use crate::refusal::Refusal;
use crate::store::Store;
use crate::tables::{Counts, Tables, MAX_CHANNELS, MAX_FILES};

/// No block is known yet for a place.
const NO_BLOCK: u8 = u8::MAX;

impl Store {
    /// The store in the tables; NotAStore where they are not sound.
    pub fn decode(tables: &Tables) -> Result<Store, Refusal> {
        Store::decode_sound(tables).ok_or(Refusal::NotAStore)
    }

    fn decode_sound(tables: &Tables) -> Option<Store> {
        let mut store = Store::unread(tables.counts()?);
        store.read_files(tables)?;
        store.read_blocks(tables)?;
        store.read_channels(tables)?;
        store.count_names(tables)?;
        store.check_named()?;
        Some(store)
    }

    fn unread(counts: Counts) -> Store {
        Store {
            counts,
            files: [None; MAX_FILES],
            channels: [None; MAX_CHANNELS],
            places: [[NO_BLOCK; MAX_PLACES]; MAX_FILES],
            free_blocks: 0,
            names: [0; MAX_FILES],
        }
    }

    /// The file in use that a record names.
    fn in_use(&self, number: u16) -> Option<(FileNo, File)> {
        let no = FileNo::new(number)?;
        let file = *self.files.get(no.index())?;
        Some((no, file?))
    }

    /// File 1, and no other, is a directory of depth 0.
    fn read_files(&mut self, tables: &Tables) -> Option<()> {
        let (records, _) = tables.file_records.as_chunks();
        for (index, record) in records.iter().enumerate() {
            let file = decode_file(record)?;
            let is_root = file.is_some_and(|file| file.is_directory() && file.depth == 0);
            if is_root != (index == FileNo::ROOT.index()) {
                return None;
            }
            self.files[index] = file;
        }
        Some(())
    }

    /// Each place of each file has exactly one block; other blocks are free.
    fn read_blocks(&mut self, tables: &Tables) -> Option<()> {
        let mut needed: usize = self
            .files
            .iter()
            .flatten()
            .map(|f| blocks_for(f.length))
            .sum();
        let (records, _) = tables.block_records.as_chunks();
        for (block, &[a, b, c, d]) in records.iter().enumerate() {
            let owner = u16::from_le_bytes([a, b]);
            let place = u16::from_le_bytes([c, d]);
            if owner == 0 && place == 0 {
                self.free_blocks |= 1 << block;
                continue;
            }
            let (no, file) = self.in_use(owner)?;
            let held =
                self.places[no.index()][..blocks_for(file.length)].get_mut(place as usize)?;
            if *held != NO_BLOCK {
                return None;
            }
            *held = block as u8;
            needed -= 1;
        }
        (needed == 0).then_some(())
    }

    fn read_channels(&mut self, tables: &Tables) -> Option<()> {
        let (records, _) = tables.channel_records.as_chunks();
        for (at, record) in records.iter().enumerate() {
            if *record == [0; 8] {
                continue;
            }
            let &[a, b, 0, 0, p, q, r, s] = record else {
                return None;
            };
            let (file, _) = self.in_use(u16::from_le_bytes([a, b]))?;
            let position = u32::from_le_bytes([p, q, r, s]);
            if position > MAX_POSITION {
                return None;
            }
            self.channels[at] = Some(Channel { file, position });
        }
        Some(())
    }

    /// Every directory's records are well formed and no two have one name;
    /// a directory is named from one level above.
    fn count_names(&mut self, tables: &Tables) -> Option<()> {
        let mut names = [0; MAX_FILES];
        for index in 0..self.counts.files {
            let Some(File {
                kind: Kind::Directory,
                depth,
                ..
            }) = self.files[index]
            else {
                continue;
            };
            let dir = FileNo::at(index);
            for entry in self.entries(tables, dir) {
                if entry == Entry::BLANK {
                    continue;
                }
                let (no, file) = self.in_use(entry.number())?;
                let misplaced = file.is_directory() && file.depth != depth + 1;
                if no == FileNo::ROOT || misplaced || !entry.name().is_well_formed() {
                    return None;
                }
                names[no.index()] += 1;
            }
            self.names_differ(tables, dir).then_some(())?;
        }
        self.names = names;
        Some(())
    }

    /// Records within one block are compared pair by pair, more are sorted.
    fn names_differ(&self, tables: &Tables, dir: FileNo) -> bool {
        let count = self.file(dir).length as usize / Entry::SIZE;
        match self.blocks_of(dir) {
            [] => true,
            &[block] => few_names_differ(&tables.block(block).as_chunks().0[..count]),
            _ => many_names_differ(self.entries(tables, dir)),
        }
    }

    /// Each directory but the root has one record, each ordinary file a record
    /// or a channel.
    fn check_named(&self) -> Option<()> {
        let mut held = self.names.map(|count| count > 0);
        for channel in self.channels.iter().flatten() {
            held[channel.file.index()] = true;
        }
        let named = (0..self.counts.files).all(|index| match self.files[index] {
            None => true,
            Some(File {
                kind: Kind::Ordinary,
                ..
            }) => held[index],
            Some(File {
                kind: Kind::Directory,
                depth,
                ..
            }) => self.names[index] == u16::from(depth != 0),
        });
        named.then_some(())
    }
}

/// A file record: `Some(None)` where it is free, `None` where it is broken.
fn decode_file(record: &[u8; 8]) -> Option<Option<File>> {
    let &[kind, depth, 0, 0, a, b, c, d] = record else {
        return None;
    };
    let length = u32::from_le_bytes([a, b, c, d]);
    let whole = length.is_multiple_of(Entry::SIZE as u32);
    match kind {
        0 if depth == 0 && length == 0 => Some(None),
        1 if depth == 0 && length <= MAX_LENGTH => Some(Some(File {
            kind: Kind::Ordinary,
            depth,
            length,
        })),
        2 if depth <= MAX_DEPTH && length <= MAX_LENGTH && whole => Some(Some(File {
            kind: Kind::Directory,
            depth,
            length,
        })),
        _ => None,
    }
}

/// Compares every pair of names.
fn few_names_differ(records: &[[u8; Entry::SIZE]]) -> bool {
    let is_blank = |record: &[u8; Entry::SIZE]| Entry::decode(record) == Entry::BLANK;
    let name = |record: &[u8; Entry::SIZE]| Entry::decode(record).name();
    records.iter().enumerate().all(|(at, record)| {
        is_blank(record)
            || records[..at]
                .iter()
                .all(|earlier| name(earlier) != name(record))
    })
}

/// Sorts the names.
fn many_names_differ(entries: impl Iterator<Item = Entry>) -> bool {
    let named = entries.filter(|&entry| entry != Entry::BLANK);
    let mut names: Vec<_> = named.map(Entry::name).collect();
    names.sort_unstable();
    names.windows(2).all(|pair| pair[0] != pair[1])
}
