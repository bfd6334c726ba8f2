//! Calls that take names.

use crate::name::{Name, MAX_SYLLABLES};
use crate::record::{Channel, Entry, File, FileNo};
use crate::refusal::Refusal;
use crate::store::{Link, Store, Target};
use crate::tables::Tables;

impl Tables<'_> {
    /// Empties a file or makes a new one, and opens it; answers the channel.
    pub fn create(&mut self, name: &[u8]) -> Result<u32, Refusal> {
        let mut store = Store::decode(self)?;
        let name = Name::parse(name)?;
        match store.target(self, name)? {
            Target::Root => Err(Refusal::IsDirectory),
            Target::Named(link) => {
                store.ordinary(link)?;
                let at = store.lowest_free_channel()?;
                self.empty(&mut store, link.file);
                Ok(self.open_at(&mut store, at, link.file))
            }
            Target::New { dir, name } => {
                let at = store.lowest_free_channel()?;
                let file = store.lowest_free_file()?;
                self.add_entry(&mut store, dir, name, file)?;
                self.set_file(&mut store, file, Some(File::ORDINARY));
                Ok(self.open_at(&mut store, at, file))
            }
        }
    }

    /// Opens a file or directory; answers the channel.
    pub fn open(&mut self, name: &[u8]) -> Result<u32, Refusal> {
        let mut store = Store::decode(self)?;
        let name = Name::parse(name)?;
        let file = store.existing(self, name)?;
        let at = store.lowest_free_channel()?;
        Ok(self.open_at(&mut store, at, file))
    }

    fn open_at(&mut self, store: &mut Store, at: usize, file: FileNo) -> u32 {
        self.set_channel(store, at, Some(Channel { file, position: 0 }));
        at as u32
    }

    /// Makes the new name stand for the old name's file.
    pub fn link(&mut self, old: &[u8], new: &[u8]) -> Result<(), Refusal> {
        let mut store = Store::decode(self)?;
        let (old, new) = (Name::parse(old)?, Name::parse(new)?);
        let link = store.ordinary_link(self, old)?;
        self.link_to(&mut store, link.file, new)
    }

    /// Links the new name, then unlinks the old one.
    pub fn r#move(&mut self, old: &[u8], new: &[u8]) -> Result<(), Refusal> {
        let mut store = Store::decode(self)?;
        let (old, new) = (Name::parse(old)?, Name::parse(new)?);
        let link = store.ordinary_link(self, old)?;
        self.link_to(&mut store, link.file, new)?;
        self.unlink_at(&mut store, link);
        Ok(())
    }

    fn link_to(&mut self, store: &mut Store, file: FileNo, new: Name) -> Result<(), Refusal> {
        match store.target(self, new)? {
            Target::Root => Err(Refusal::IsDirectory),
            Target::New { dir, name } => self.add_entry(store, dir, name, file),
            Target::Named(link) => {
                store.ordinary(link)?;
                self.replace_entry(store, link, file);
                self.free_if_lost(store, link.file);
                Ok(())
            }
        }
    }

    /// Takes an ordinary file's name away.
    pub fn unlink(&mut self, name: &[u8]) -> Result<(), Refusal> {
        let mut store = Store::decode(self)?;
        let name = Name::parse(name)?;
        let link = store.ordinary_link(self, name)?;
        self.unlink_at(&mut store, link);
        Ok(())
    }

    fn unlink_at(&mut self, store: &mut Store, link: Link) {
        self.blank_entry(store, link);
        self.free_if_lost(store, link.file);
    }

    /// Lists a directory's names, 14 bytes each; answers their count.
    pub fn ls(&self, name: &[u8], buffer: &mut [u8]) -> Result<u32, Refusal> {
        let store = Store::decode(self)?;
        let name = Name::parse(name)?;
        let dir = store.existing(self, name)?;
        if !store.file(dir).is_directory() {
            return Err(Refusal::NotDirectory);
        }
        let named = || {
            store
                .entries(self, dir)
                .filter(|&entry| entry != Entry::BLANK)
        };
        let count = named().count();
        let (records, _) = buffer.as_chunks_mut();
        let records = records.get_mut(..count).ok_or(Refusal::OutShort)?;
        for (record, entry) in records.iter_mut().zip(named()) {
            *record = entry.name().bytes();
        }
        Ok(count as u32)
    }

    /// Makes an empty directory.
    pub fn mkdir(&mut self, name: &[u8]) -> Result<(), Refusal> {
        let mut store = Store::decode(self)?;
        let name = Name::parse(name)?;
        if name.syllables().count() == MAX_SYLLABLES {
            return Err(Refusal::BadName);
        }
        let Target::New { dir, name } = store.target(self, name)? else {
            return Err(Refusal::NameInUse);
        };
        let file = store.lowest_free_file()?;
        self.add_entry(&mut store, dir, name, file)?;
        let depth = store.file(dir).depth + 1;
        self.set_file(&mut store, file, Some(File::directory(depth)));
        Ok(())
    }

    /// Removes an empty directory that no channel holds.
    pub fn rmdir(&mut self, name: &[u8]) -> Result<(), Refusal> {
        let mut store = Store::decode(self)?;
        let name = Name::parse(name)?;
        let link = match store.target(self, name)? {
            Target::Root => return Err(Refusal::InUse),
            Target::New { .. } => return Err(Refusal::NoSuchName),
            Target::Named(link) => link,
        };
        if !store.file(link.file).is_directory() {
            return Err(Refusal::NotDirectory);
        }
        if store.has_channel(link.file) {
            return Err(Refusal::InUse);
        }
        if store
            .entries(self, link.file)
            .any(|entry| entry != Entry::BLANK)
        {
            return Err(Refusal::NotEmpty);
        }
        self.blank_entry(&mut store, link);
        self.free(&mut store, link.file);
        Ok(())
    }
}

impl Store {
    /// IsDirectory where a record names a directory.
    fn ordinary(&self, link: Link) -> Result<(), Refusal> {
        if self.file(link.file).is_directory() {
            return Err(Refusal::IsDirectory);
        }
        Ok(())
    }

    /// The record of a name that must stand for an ordinary file.
    fn ordinary_link(&self, tables: &Tables, name: Name) -> Result<Link, Refusal> {
        match self.target(tables, name)? {
            Target::Root => Err(Refusal::IsDirectory),
            Target::New { .. } => Err(Refusal::NoSuchName),
            Target::Named(link) => self.ordinary(link).map(|()| link),
        }
    }
}
