//! One plain pass over the bytes that a soundness test must read.

use std::hint::black_box;

use model::Memory;

/// The directories' bytes, block by block.
fn directory_parts(memory: &Memory) -> impl Iterator<Item = &[u8]> {
    let (records, _) = memory.block_records.as_chunks::<4>();
    let (files, _) = memory.file_records.as_chunks::<8>();
    records
        .iter()
        .enumerate()
        .filter_map(move |(block, &[a, b, c, d])| {
            let owner = usize::from(u16::from_le_bytes([a, b]));
            let place = usize::from(u16::from_le_bytes([c, d]));
            let &[kind, _, _, _, e, f, g, h] = files.get(owner.checked_sub(1)?)?;
            let length = u32::from_le_bytes([e, f, g, h]) as usize;
            let held = (length - 512 * place).min(512);
            (kind == 2).then(|| &memory.blocks[512 * block..512 * block + held])
        })
}

fn record_tables(memory: &Memory) -> [&[u8]; 3] {
    [
        &memory.block_records,
        &memory.file_records,
        &memory.channel_records,
    ]
}

/// How many bytes a soundness test must read: the records, and directories.
pub fn bytes_to_read(memory: &Memory) -> usize {
    let records: usize = record_tables(memory).iter().map(|t| t.len()).sum();
    records + directory_parts(memory).map(<[u8]>::len).sum::<usize>()
}

/// Adds them all up.
pub fn pass(memory: &Memory) {
    let memory = black_box(memory);
    let sum = |bytes: &[u8]| bytes.iter().fold(0u8, |sum, &b| sum.wrapping_add(b));
    let records = record_tables(memory).map(sum);
    let directories = directory_parts(memory).map(sum);
    black_box(directories.fold(records[0] ^ records[1] ^ records[2], u8::wrapping_add));
}
