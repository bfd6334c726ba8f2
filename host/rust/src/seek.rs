//! The modes of [`Store::seek`](crate::Store::seek): where it counts from, in
//! bytes or in blocks of 512.

/// Position n.
pub const BYTES_FROM_START: u32 = 0;
/// The position plus n.
pub const BYTES_FROM_POSITION: u32 = 1;
/// The file's length plus n.
pub const BYTES_FROM_END: u32 = 2;
/// Position 512 n.
pub const BLOCKS_FROM_START: u32 = 3;
/// The position plus 512 n.
pub const BLOCKS_FROM_POSITION: u32 = 4;
/// The file's length plus 512 n.
pub const BLOCKS_FROM_END: u32 = 5;
