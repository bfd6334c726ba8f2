//! The proved file store for Rust programs.
//!
//! A [`Store`] borrows four byte tables and makes the calls of the static
//! library on them; [`Tables`] owns such tables. The store keeps nothing
//! outside its tables, so they may be saved, copied and lent again. Tables of
//! any bytes may be lent: what is not a sound store is refused as
//! [`Report::NotAStore`], and a refused call changes nothing. Calls allocate
//! nothing; only [`Tables::new`] does.
//!
//! ```
//! use filestore::{seek, Report, Tables};
//!
//! let mut tables = Tables::new(4, 4, 2);
//! let mut store = tables.lend();
//! store.prepare()?;
//! let x = store.create("/x")?;
//! store.write(x, b"MONFRI")?;
//! store.seek(x, seek::BYTES_FROM_START, 8)?;
//! store.write(x, b"SU")?;
//! assert_eq!(store.fstat(x)?.length, 10);
//!
//! store.seek(x, seek::BYTES_FROM_START, 5)?;
//! let mut bytes = [0; 9];
//! let count = store.read(x, &mut bytes)?;
//! assert_eq!(&bytes[..count], b"I\0\0SU");
//!
//! assert_eq!(store.open("/y"), Err(Report::NoSuchName));
//! assert_eq!(store.room()?.blocks, 2);
//! # Ok::<(), Report>(())
//! ```

#![no_std]
#![warn(missing_docs)]

extern crate alloc;

mod answers;
mod listing;
mod report;
mod store;
mod tables;

pub mod seek;
pub mod sys;

pub use answers::{ChannelNo, FileNo, Kind, Room, Stat};
pub use listing::names;
pub use report::Report;
pub use store::Store;
pub use tables::Tables;
