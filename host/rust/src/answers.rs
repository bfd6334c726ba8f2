//! What accepted calls answer.

/// A channel's number; channels count from 0.
#[derive(Clone, Copy, Debug, PartialEq, Eq, Hash)]
pub struct ChannelNo(pub u32);

/// A file's number; files count from 1, the root directory.
#[derive(Clone, Copy, Debug, PartialEq, Eq, Hash)]
pub struct FileNo(pub u32);

/// What a file is.
#[derive(Clone, Copy, Debug, PartialEq, Eq, Hash)]
pub enum Kind {
    /// An ordinary file.
    Ordinary,
    /// A directory.
    Directory,
}

/// What fstat tells of a channel's file.
#[derive(Clone, Copy, Debug, PartialEq, Eq, Hash)]
pub struct Stat {
    /// Its bytes.
    pub length: u32,
    /// Its number.
    pub file: FileNo,
    /// What it is.
    pub kind: Kind,
}

/// What is free.
#[derive(Clone, Copy, Debug, PartialEq, Eq, Hash)]
pub struct Room {
    /// Free blocks of 512 bytes.
    pub blocks: u32,
    /// Free file numbers.
    pub files: u32,
    /// Free channels.
    pub channels: u32,
}
