//! A sound store, decoded.

use crate::name::Name;
use crate::record::{blocks_for, Channel, Entry, File, FileNo, StoredName, BLOCK, MAX_PLACES};
use crate::refusal::Refusal;
use crate::tables::{Counts, Tables, MAX_CHANNELS, MAX_FILES};

/// What the records of sound tables say. Made by `Store::decode` alone.
pub struct Store {
    pub(crate) counts: Counts,
    /// The files in use, by record.
    pub(crate) files: [Option<File>; MAX_FILES],
    /// The channels in use, by number.
    pub(crate) channels: [Option<Channel>; MAX_CHANNELS],
    /// The block at each place of each file.
    pub(crate) places: [[u8; MAX_PLACES]; MAX_FILES],
    /// The free blocks, block 0 at the lowest bit.
    pub(crate) free_blocks: u128,
    /// How many directory records name each file.
    pub(crate) names: [u16; MAX_FILES],
}

/// Record `at` of directory `dir`, which names `file`.
#[derive(Clone, Copy)]
pub struct Link {
    pub dir: FileNo,
    pub at: usize,
    pub name: StoredName,
    pub file: FileNo,
}

/// What a name stands for.
#[derive(Clone, Copy)]
pub enum Target {
    Root,
    Named(Link),
    /// Nothing yet: a name that directory `dir` could hold.
    New {
        dir: FileNo,
        name: StoredName,
    },
}

impl Store {
    /// The file of a number that the store itself holds.
    pub fn file(&self, no: FileNo) -> File {
        self.files[no.index()].expect("a sound store names files in use")
    }

    /// The channel of a number that a caller gave.
    pub fn channel(&self, cid: u32) -> Result<(usize, Channel), Refusal> {
        let at = cid as usize;
        let channel = self.channels.get(at).copied().flatten();
        channel
            .map(|channel| (at, channel))
            .ok_or(Refusal::NoSuchCid)
    }

    pub fn has_channel(&self, no: FileNo) -> bool {
        self.channels
            .iter()
            .flatten()
            .any(|channel| channel.file == no)
    }

    pub fn lowest_free_channel(&self) -> Result<usize, Refusal> {
        let channels = &self.channels[..self.counts.channels];
        channels
            .iter()
            .position(Option::is_none)
            .ok_or(Refusal::NoFreeCids)
    }

    pub fn lowest_free_file(&self) -> Result<FileNo, Refusal> {
        let files = &self.files[..self.counts.files];
        files
            .iter()
            .position(Option::is_none)
            .map(FileNo::at)
            .ok_or(Refusal::NoFreeFids)
    }

    /// The numbers of the blocks of a file, by place.
    pub fn blocks_of(&self, no: FileNo) -> &[u8] {
        &self.places[no.index()][..blocks_for(self.file(no).length)]
    }

    /// The records of a directory, blanks included.
    pub fn entries<'s>(
        &'s self,
        tables: &'s Tables,
        dir: FileNo,
    ) -> impl Iterator<Item = Entry> + use<'s> {
        let length = self.file(dir).length as usize;
        self.blocks_of(dir)
            .iter()
            .enumerate()
            .flat_map(move |(place, &block)| {
                let held = (length - BLOCK * place).min(BLOCK);
                let (records, _) = tables.block(block)[..held].as_chunks();
                records.iter().map(Entry::decode)
            })
    }

    /// The record of that name in a directory.
    fn look_in(&self, tables: &Tables, dir: FileNo, name: StoredName) -> Option<Link> {
        let mut entries = self.entries(tables, dir).enumerate();
        let (at, entry) = entries.find(|(_, entry)| entry.name() == name)?;
        let file = FileNo::new(entry.number())?;
        Some(Link {
            dir,
            at,
            name,
            file,
        })
    }

    /// The directory that a name on the way stands for.
    fn directory(&self, tables: &Tables, name: Name) -> Result<FileNo, Refusal> {
        let mut dir = FileNo::ROOT;
        for syllable in name.syllables() {
            match self.look_in(tables, dir, StoredName::of(syllable)) {
                Some(link) if self.file(link.file).is_directory() => dir = link.file,
                _ => return Err(Refusal::NoSuchName),
            }
        }
        Ok(dir)
    }

    /// What a name stands for, or where it could be put.
    pub fn target(&self, tables: &Tables, name: Name) -> Result<Target, Refusal> {
        let Some((way, last)) = name.split_last() else {
            return Ok(Target::Root);
        };
        let dir = self.directory(tables, way)?;
        let name = StoredName::of(last);
        Ok(match self.look_in(tables, dir, name) {
            Some(link) => Target::Named(link),
            None => Target::New { dir, name },
        })
    }

    /// The file of a name that must stand for one.
    pub fn existing(&self, tables: &Tables, name: Name) -> Result<FileNo, Refusal> {
        match self.target(tables, name)? {
            Target::Root => Ok(FileNo::ROOT),
            Target::Named(link) => Ok(link.file),
            Target::New { .. } => Err(Refusal::NoSuchName),
        }
    }
}
