//! The calls on lent tables.

use crate::answers::{ChannelNo, FileNo, Kind, Room, Stat};
use crate::report::Report;
use crate::sys;

/// Four lent tables of any lengths and bytes, and the calls on them.
///
/// Every call but [`prepare`](Store::prepare) first tests that the tables are
/// a sound store. A refused call changes no byte, of a buffer either. Names are
/// "/" or up to 8 syllables of 1 to 14 bytes, each after one "/".
///
/// ```
/// let mut store = filestore::Store {
///     blocks: &mut [0; 512 * 8],
///     block_records: &mut [0; 4 * 8],
///     file_records: &mut [0; 8 * 4],
///     channel_records: &mut [0; 8 * 2],
/// };
/// store.prepare()?;
/// store.mkdir("/logs")?;
/// let log = store.create("/logs/today")?;
/// assert_eq!(store.write(log, "started\n")?, 8);
/// store.close(log)?;
/// # Ok::<(), filestore::Report>(())
/// ```
#[derive(Debug)]
pub struct Store<'a> {
    /// 512 bytes a block, 1 to 128 blocks.
    pub blocks: &'a mut [u8],
    /// 4 bytes a block.
    pub block_records: &'a mut [u8],
    /// 8 bytes a file, 1 to 64 files.
    pub file_records: &'a mut [u8],
    /// 8 bytes a channel, 1 to 16 channels.
    pub channel_records: &'a mut [u8],
}

/// Makes a call of the library on the tables of a store.
///
/// Sound, as `&mut Store` lends four tables that are valid and do not overlap,
/// and the other parameters are slices of their own or numbers.
macro_rules! call {
    ($function:ident, $store:expr $(, $own:expr)*) => {
        // SAFETY: see above.
        accepted(unsafe {
            sys::$function(
                $store.blocks.as_mut_ptr(),
                $store.blocks.len(),
                $store.block_records.as_mut_ptr(),
                $store.block_records.len(),
                $store.file_records.as_mut_ptr(),
                $store.file_records.len(),
                $store.channel_records.as_mut_ptr(),
                $store.channel_records.len(),
                $($own),*
            )
        })
    };
}

/// The answer of an accepted call, or its report.
fn accepted(answer: sys::Answer) -> Result<sys::Answer, Report> {
    match answer.report {
        0 => Ok(answer),
        report => Err(Report::of(report).expect("reports are 0 to 15")),
    }
}

impl Store<'_> {
    /// Makes an empty store, whatever the tables held; blocks keep their bytes.
    pub fn prepare(&mut self) -> Result<(), Report> {
        call!(filestore_prepare, self).map(drop)
    }

    /// Empties a file or makes a new one, and opens it at position 0.
    pub fn create(&mut self, name: impl AsRef<[u8]>) -> Result<ChannelNo, Report> {
        let name = name.as_ref();
        call!(filestore_create, self, name.as_ptr(), name.len()).map(|a| ChannelNo(a.first))
    }

    /// Opens a file or directory at position 0.
    pub fn open(&mut self, name: impl AsRef<[u8]>) -> Result<ChannelNo, Report> {
        let name = name.as_ref();
        call!(filestore_open, self, name.as_ptr(), name.len()).map(|a| ChannelNo(a.first))
    }

    /// Closes a channel. An ordinary file with neither name nor channel is
    /// freed.
    pub fn close(&mut self, channel: ChannelNo) -> Result<(), Report> {
        call!(filestore_close, self, channel.0).map(drop)
    }

    /// Reads from the position on, as far as the file and the buffer go;
    /// answers how many bytes. Directories may be read.
    pub fn read(&mut self, channel: ChannelNo, buffer: &mut [u8]) -> Result<usize, Report> {
        let (pointer, length) = (buffer.as_mut_ptr(), buffer.len());
        call!(filestore_read, self, channel.0, pointer, length).map(|a| a.first as usize)
    }

    /// Writes at the position, zeros in any gap before it; answers how many
    /// bytes.
    pub fn write(&mut self, channel: ChannelNo, data: impl AsRef<[u8]>) -> Result<usize, Report> {
        let data = data.as_ref();
        call!(filestore_write, self, channel.0, data.as_ptr(), data.len()).map(|a| a.first as usize)
    }

    /// Moves the position, by a mode of [`seek`](crate::seek); answers the new
    /// one.
    pub fn seek(&mut self, channel: ChannelNo, mode: u32, n: u32) -> Result<u32, Report> {
        call!(filestore_seek, self, channel.0, mode, n).map(|a| a.first)
    }

    /// The length, number and kind of a channel's file.
    pub fn fstat(&mut self, channel: ChannelNo) -> Result<Stat, Report> {
        call!(filestore_fstat, self, channel.0).map(|a| Stat {
            length: a.first,
            file: FileNo(a.second),
            kind: if a.third == 1 {
                Kind::Ordinary
            } else {
                Kind::Directory
            },
        })
    }

    /// Makes the new name stand for the old name's file, in place of what it
    /// stood for.
    pub fn link(&mut self, old: impl AsRef<[u8]>, new: impl AsRef<[u8]>) -> Result<(), Report> {
        let (old, new) = (old.as_ref(), new.as_ref());
        call!(
            filestore_link,
            self,
            old.as_ptr(),
            old.len(),
            new.as_ptr(),
            new.len()
        )
        .map(drop)
    }

    /// Takes an ordinary file's name away.
    pub fn unlink(&mut self, name: impl AsRef<[u8]>) -> Result<(), Report> {
        let name = name.as_ref();
        call!(filestore_unlink, self, name.as_ptr(), name.len()).map(drop)
    }

    /// Links the new name, then unlinks the old one.
    pub fn r#move(&mut self, old: impl AsRef<[u8]>, new: impl AsRef<[u8]>) -> Result<(), Report> {
        let (old, new) = (old.as_ref(), new.as_ref());
        call!(
            filestore_move,
            self,
            old.as_ptr(),
            old.len(),
            new.as_ptr(),
            new.len()
        )
        .map(drop)
    }

    /// Lists a directory's names, 14 bytes each, which [`names`](crate::names)
    /// reads; answers how many.
    pub fn ls(&mut self, name: impl AsRef<[u8]>, buffer: &mut [u8]) -> Result<usize, Report> {
        let name = name.as_ref();
        let (pointer, length) = (buffer.as_mut_ptr(), buffer.len());
        call!(
            filestore_ls,
            self,
            name.as_ptr(),
            name.len(),
            pointer,
            length
        )
        .map(|a| a.first as usize)
    }

    /// Makes an empty directory.
    pub fn mkdir(&mut self, name: impl AsRef<[u8]>) -> Result<(), Report> {
        let name = name.as_ref();
        call!(filestore_mkdir, self, name.as_ptr(), name.len()).map(drop)
    }

    /// Removes an empty directory that no channel holds.
    pub fn rmdir(&mut self, name: impl AsRef<[u8]>) -> Result<(), Report> {
        let name = name.as_ref();
        call!(filestore_rmdir, self, name.as_ptr(), name.len()).map(drop)
    }

    /// Counts free blocks, file numbers and channels.
    pub fn room(&mut self) -> Result<Room, Report> {
        call!(filestore_room, self).map(|a| Room {
            blocks: a.first,
            files: a.second,
            channels: a.third,
        })
    }
}
