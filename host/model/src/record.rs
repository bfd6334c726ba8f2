//! The fixed-size records of the tables, decoded and encoded.

/// Bytes in a block.
pub const BLOCK: usize = 512;
/// The longest file or directory.
pub const MAX_LENGTH: u32 = 32_768;
/// The most places a file can have.
pub const MAX_PLACES: usize = MAX_LENGTH as usize / BLOCK;
/// The highest position of a channel.
pub const MAX_POSITION: u32 = 16_777_215;
/// The deepest directory.
pub const MAX_DEPTH: u8 = 7;

/// How many blocks hold `length` bytes.
pub fn blocks_for(length: u32) -> usize {
    (length as usize).div_ceil(BLOCK)
}

/// A file number; files count from 1.
#[derive(Clone, Copy, Debug, PartialEq, Eq)]
pub struct FileNo(u16);

impl FileNo {
    pub const ROOT: FileNo = FileNo(1);

    /// The file whose record is at `index`.
    pub fn at(index: usize) -> FileNo {
        FileNo(index as u16 + 1)
    }

    /// The file of that number; none for 0.
    pub fn new(number: u16) -> Option<FileNo> {
        (number != 0).then_some(FileNo(number))
    }

    pub fn number(self) -> u16 {
        self.0
    }

    /// Where the file's record stands in its table.
    pub fn index(self) -> usize {
        self.0 as usize - 1
    }
}

/// What a file is.
#[derive(Clone, Copy, Debug, PartialEq, Eq)]
#[repr(u8)]
pub enum Kind {
    Ordinary = 1,
    Directory = 2,
}

/// The record of a file in use.
#[derive(Clone, Copy, Debug, PartialEq, Eq)]
pub struct File {
    pub kind: Kind,
    pub depth: u8,
    pub length: u32,
}

impl File {
    /// An empty ordinary file.
    pub const ORDINARY: File = File {
        kind: Kind::Ordinary,
        depth: 0,
        length: 0,
    };

    /// An empty directory.
    pub fn directory(depth: u8) -> File {
        File {
            kind: Kind::Directory,
            depth,
            length: 0,
        }
    }

    pub fn is_directory(self) -> bool {
        self.kind == Kind::Directory
    }

    pub fn encode(self) -> [u8; 8] {
        let [a, b, c, d] = self.length.to_le_bytes();
        [self.kind as u8, self.depth, 0, 0, a, b, c, d]
    }
}

/// The record of a channel in use.
#[derive(Clone, Copy, Debug, PartialEq, Eq)]
pub struct Channel {
    pub file: FileNo,
    pub position: u32,
}

impl Channel {
    pub fn encode(self) -> [u8; 8] {
        let [a, b] = self.file.number().to_le_bytes();
        let [p, q, r, s] = self.position.to_le_bytes();
        [a, b, 0, 0, p, q, r, s]
    }
}

/// The record of a held block.
#[derive(Clone, Copy, Debug, PartialEq, Eq)]
pub struct Held {
    pub owner: FileNo,
    pub place: u16,
}

impl Held {
    pub fn encode(self) -> [u8; 4] {
        let [a, b] = self.owner.number().to_le_bytes();
        let [c, d] = self.place.to_le_bytes();
        [a, b, c, d]
    }
}

/// A stored name: 14 bytes, low byte first, zeros after the name.
#[derive(Clone, Copy, Debug, PartialEq, Eq, PartialOrd, Ord)]
pub struct StoredName(u128);

impl StoredName {
    /// Bytes of a stored name.
    pub const SIZE: usize = 14;

    /// A syllable as it is stored; it has at most 14 bytes.
    pub fn of(syllable: &[u8]) -> StoredName {
        let mut bytes = [0; 16];
        bytes[..syllable.len()].copy_from_slice(syllable);
        StoredName(u128::from_le_bytes(bytes))
    }

    pub fn bytes(self) -> [u8; Self::SIZE] {
        let [name @ .., _, _] = self.0.to_le_bytes();
        name
    }

    /// Whether there are 1 to 14 bytes, none of them 0 or "/", then zeros alone.
    pub fn is_well_formed(self) -> bool {
        let padded = self.0.to_le_bytes();
        let length = padded.len() - self.0.leading_zeros() as usize / 8;
        length > 0 && padded[..length].iter().all(|&b| b != 0 && b != b'/')
    }
}

/// A record of a directory: file number, then name.
#[derive(Clone, Copy, Debug, PartialEq, Eq)]
pub struct Entry(u128);

impl Entry {
    /// Bytes of a directory record.
    pub const SIZE: usize = 16;
    pub const BLANK: Entry = Entry(0);

    pub fn new(file: FileNo, name: StoredName) -> Entry {
        Entry(name.0 << 16 | file.number() as u128)
    }

    pub fn decode(bytes: &[u8; Self::SIZE]) -> Entry {
        Entry(u128::from_le_bytes(*bytes))
    }

    pub fn encode(self) -> [u8; Self::SIZE] {
        self.0.to_le_bytes()
    }

    /// The file number, 0 in a blank record.
    pub fn number(self) -> u16 {
        self.0 as u16
    }

    pub fn name(self) -> StoredName {
        StoredName(self.0 >> 16)
    }
}

#[cfg(test)]
mod tests {
    use super::*;

    /// P6.
    #[test]
    fn blocks_needed() {
        assert_eq!([0, 1, 512, 513].map(blocks_for), [0, 1, 1, 2]);
    }

    /// P9.
    #[test]
    fn file_2_named_x() {
        let mut bytes = [0; 16];
        bytes[0] = 2;
        bytes[2] = 0x78;
        let entry = Entry::new(FileNo(2), StoredName::of(b"x"));
        assert_eq!(entry.encode(), bytes);
        assert_eq!(Entry::decode(&bytes), entry);
    }

    #[test]
    fn stored_names() {
        assert!(StoredName::of(b"x").is_well_formed());
        assert!(StoredName::of(b"abcdefghijklmn").is_well_formed());
        assert!(StoredName::of(b" \n\xff").is_well_formed());
        assert!(!StoredName::of(b"").is_well_formed());
        assert!(!StoredName::of(b"a/b").is_well_formed());
        assert!(!StoredName::of(b"a\0b").is_well_formed());
        assert!(!StoredName::of(b"\0b").is_well_formed());
    }
}
