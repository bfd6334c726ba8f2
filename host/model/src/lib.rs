//! The file store as a plain Rust program.
//!
//! It follows the exact rules of the store (document 01 and the readings in
//! docs/DECISIONS.md), not the Rattle definitions, so that the two can be
//! compared. A call decodes the lent tables into a [`Store`](store::Store),
//! which is the test of soundness, decides, and then encodes its changes.

mod bytes;
mod channel_calls;
mod name_calls;
mod sound;
mod store;
mod store_calls;

pub mod call;
pub mod memory;
pub mod name;
pub mod random;
pub mod record;
pub mod refusal;
pub mod sessions;
pub mod tables;
pub mod text;

pub use call::{Answer, Call};
pub use channel_calls::Stat;
pub use memory::Memory;
pub use refusal::Refusal;
pub use store_calls::Room;
pub use tables::Tables;
