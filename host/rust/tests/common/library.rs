//! Calls made through the static library.

use filestore::sys::{self, Answer};
use model::{Call, Tables};

/// Makes a call on tables; only read and ls look at the buffer.
pub fn perform(call: &Call, t: &mut Tables, buffer: &mut [u8]) -> Answer {
    macro_rules! on_tables {
        ($function:ident $(, $own:expr)*) => {
            // SAFETY: the tables, the buffer and the call's own slices are
            // valid and do not overlap.
            unsafe {
                sys::$function(
                    t.blocks.as_mut_ptr(), t.blocks.len(),
                    t.block_records.as_mut_ptr(), t.block_records.len(),
                    t.file_records.as_mut_ptr(), t.file_records.len(),
                    t.channel_records.as_mut_ptr(), t.channel_records.len(),
                    $($own),*
                )
            }
        };
    }
    let (out, lent) = (buffer.as_mut_ptr(), buffer.len());
    match *call {
        Call::Prepare => on_tables!(filestore_prepare),
        Call::Create(name) => on_tables!(filestore_create, name.as_ptr(), name.len()),
        Call::Open(name) => on_tables!(filestore_open, name.as_ptr(), name.len()),
        Call::Close(cid) => on_tables!(filestore_close, cid),
        Call::Read(cid) => on_tables!(filestore_read, cid, out, lent),
        Call::Write(cid, data) => on_tables!(filestore_write, cid, data.as_ptr(), data.len()),
        Call::Seek(cid, mode, n) => on_tables!(filestore_seek, cid, mode, n),
        Call::Fstat(cid) => on_tables!(filestore_fstat, cid),
        Call::Link(old, new) => {
            on_tables!(
                filestore_link,
                old.as_ptr(),
                old.len(),
                new.as_ptr(),
                new.len()
            )
        }
        Call::Unlink(name) => on_tables!(filestore_unlink, name.as_ptr(), name.len()),
        Call::Move(old, new) => {
            on_tables!(
                filestore_move,
                old.as_ptr(),
                old.len(),
                new.as_ptr(),
                new.len()
            )
        }
        Call::Ls(name) => on_tables!(filestore_ls, name.as_ptr(), name.len(), out, lent),
        Call::Mkdir(name) => on_tables!(filestore_mkdir, name.as_ptr(), name.len()),
        Call::Rmdir(name) => on_tables!(filestore_rmdir, name.as_ptr(), name.len()),
        Call::Room => on_tables!(filestore_room),
    }
}
