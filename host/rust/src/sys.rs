//! The static library's functions, as C has them.
//!
//! Each takes the tables as pointer and length in the order blocks, block
//! records, file records, channel records, then the call's own. They keep no
//! pointer and touch nothing but what they are lent. What they are lent must
//! be valid for its length, must not overlap, and may hold any bytes.

#![allow(missing_docs)]

/// A report and up to three numbers; a refusal has zeros after its report.
#[repr(C)]
#[derive(Clone, Copy, Debug, PartialEq, Eq)]
pub struct Answer {
    pub report: u32,
    pub first: u32,
    pub second: u32,
    pub third: u32,
}

extern "C" {
    pub fn filestore_prepare(
        blocks: *const u8,
        blocks_length: usize,
        block_records: *mut u8,
        block_records_length: usize,
        file_records: *mut u8,
        file_records_length: usize,
        channel_records: *mut u8,
        channel_records_length: usize,
    ) -> Answer;
    pub fn filestore_create(
        blocks: *mut u8,
        blocks_length: usize,
        block_records: *mut u8,
        block_records_length: usize,
        file_records: *mut u8,
        file_records_length: usize,
        channel_records: *mut u8,
        channel_records_length: usize,
        name: *const u8,
        name_length: usize,
    ) -> Answer;
    pub fn filestore_open(
        blocks: *const u8,
        blocks_length: usize,
        block_records: *const u8,
        block_records_length: usize,
        file_records: *const u8,
        file_records_length: usize,
        channel_records: *mut u8,
        channel_records_length: usize,
        name: *const u8,
        name_length: usize,
    ) -> Answer;
    pub fn filestore_close(
        blocks: *const u8,
        blocks_length: usize,
        block_records: *mut u8,
        block_records_length: usize,
        file_records: *mut u8,
        file_records_length: usize,
        channel_records: *mut u8,
        channel_records_length: usize,
        channel: u32,
    ) -> Answer;
    pub fn filestore_read(
        blocks: *const u8,
        blocks_length: usize,
        block_records: *const u8,
        block_records_length: usize,
        file_records: *const u8,
        file_records_length: usize,
        channel_records: *mut u8,
        channel_records_length: usize,
        channel: u32,
        buffer: *mut u8,
        buffer_length: usize,
    ) -> Answer;
    pub fn filestore_write(
        blocks: *mut u8,
        blocks_length: usize,
        block_records: *mut u8,
        block_records_length: usize,
        file_records: *mut u8,
        file_records_length: usize,
        channel_records: *mut u8,
        channel_records_length: usize,
        channel: u32,
        data: *const u8,
        data_length: usize,
    ) -> Answer;
    pub fn filestore_seek(
        blocks: *const u8,
        blocks_length: usize,
        block_records: *const u8,
        block_records_length: usize,
        file_records: *const u8,
        file_records_length: usize,
        channel_records: *mut u8,
        channel_records_length: usize,
        channel: u32,
        mode: u32,
        n: u32,
    ) -> Answer;
    pub fn filestore_fstat(
        blocks: *const u8,
        blocks_length: usize,
        block_records: *const u8,
        block_records_length: usize,
        file_records: *const u8,
        file_records_length: usize,
        channel_records: *const u8,
        channel_records_length: usize,
        channel: u32,
    ) -> Answer;
    pub fn filestore_link(
        blocks: *mut u8,
        blocks_length: usize,
        block_records: *mut u8,
        block_records_length: usize,
        file_records: *mut u8,
        file_records_length: usize,
        channel_records: *const u8,
        channel_records_length: usize,
        old: *const u8,
        old_length: usize,
        new: *const u8,
        new_length: usize,
    ) -> Answer;
    pub fn filestore_unlink(
        blocks: *mut u8,
        blocks_length: usize,
        block_records: *mut u8,
        block_records_length: usize,
        file_records: *mut u8,
        file_records_length: usize,
        channel_records: *const u8,
        channel_records_length: usize,
        name: *const u8,
        name_length: usize,
    ) -> Answer;
    pub fn filestore_move(
        blocks: *mut u8,
        blocks_length: usize,
        block_records: *mut u8,
        block_records_length: usize,
        file_records: *mut u8,
        file_records_length: usize,
        channel_records: *const u8,
        channel_records_length: usize,
        old: *const u8,
        old_length: usize,
        new: *const u8,
        new_length: usize,
    ) -> Answer;
    pub fn filestore_ls(
        blocks: *const u8,
        blocks_length: usize,
        block_records: *const u8,
        block_records_length: usize,
        file_records: *const u8,
        file_records_length: usize,
        channel_records: *const u8,
        channel_records_length: usize,
        name: *const u8,
        name_length: usize,
        buffer: *mut u8,
        buffer_length: usize,
    ) -> Answer;
    pub fn filestore_mkdir(
        blocks: *mut u8,
        blocks_length: usize,
        block_records: *mut u8,
        block_records_length: usize,
        file_records: *mut u8,
        file_records_length: usize,
        channel_records: *const u8,
        channel_records_length: usize,
        name: *const u8,
        name_length: usize,
    ) -> Answer;
    pub fn filestore_rmdir(
        blocks: *mut u8,
        blocks_length: usize,
        block_records: *mut u8,
        block_records_length: usize,
        file_records: *mut u8,
        file_records_length: usize,
        channel_records: *const u8,
        channel_records_length: usize,
        name: *const u8,
        name_length: usize,
    ) -> Answer;
    pub fn filestore_room(
        blocks: *const u8,
        blocks_length: usize,
        block_records: *const u8,
        block_records_length: usize,
        file_records: *const u8,
        file_records_length: usize,
        channel_records: *const u8,
        channel_records_length: usize,
    ) -> Answer;
}
