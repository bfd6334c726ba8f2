//! Damage done to tables.

use model::random::Random;
use model::Memory;

/// Makes one change, which may break a rule.
pub fn damage(random: &mut Random, memory: &mut Memory) {
    match random.below(16) {
        0..=2 => {
            let table = any_table(random, memory);
            byte(random, table);
        }
        3..=6 => {
            let (table, _) = record_table(random, memory);
            byte(random, table);
        }
        7 | 8 => field(random, memory),
        9 => swap(random, memory),
        10 => copy(random, memory),
        11..=13 => entry(random, memory),
        14 => resize(random, memory),
        _ => scramble(random, memory),
    }
}

fn any_table<'m>(random: &mut Random, memory: &'m mut Memory) -> &'m mut Vec<u8> {
    match random.below(4) {
        0 => &mut memory.blocks,
        1 => &mut memory.block_records,
        2 => &mut memory.file_records,
        _ => &mut memory.channel_records,
    }
}

/// A table of records, with its record's size.
fn record_table<'m>(random: &mut Random, memory: &'m mut Memory) -> (&'m mut Vec<u8>, usize) {
    match random.below(3) {
        0 => (&mut memory.block_records, 4),
        1 => (&mut memory.file_records, 8),
        _ => (&mut memory.channel_records, 8),
    }
}

fn value(random: &mut Random, old: u8) -> u8 {
    match random.below(8) {
        0 => 0,
        1 => random.pick(&[1, 2, 3]),
        2 => b'/',
        3 => 255,
        4 => old.wrapping_add(1),
        5 => old.wrapping_sub(1),
        6 => old ^ 1 << random.below(8),
        _ => random.number() as u8,
    }
}

fn byte(random: &mut Random, table: &mut [u8]) {
    if !table.is_empty() {
        let at = random.below(table.len());
        table[at] = value(random, table[at]);
    }
}

/// A length or a position.
fn field(random: &mut Random, memory: &mut Memory) {
    const EDGES: [u32; 14] = [
        0, 1, 8, 16, 17, 32, 512, 513, 528, 1024, 32_768, 32_784, 16_777_215, 16_777_216,
    ];
    let table = if random.chance(60) {
        &mut memory.file_records
    } else {
        &mut memory.channel_records
    };
    if let Some(records) = table.len().checked_div(8).filter(|&count| count > 0) {
        let at = 8 * random.below(records) + 4;
        table[at..at + 4].copy_from_slice(&random.pick(&EDGES).to_le_bytes());
    }
}

/// Two records of a table, when it has any: where they begin, and their size.
fn two_records(random: &mut Random, table: &[u8], size: usize) -> Option<(usize, usize)> {
    let count = table.len() / size;
    (count > 0).then(|| (size * random.below(count), size * random.below(count)))
}

fn swap(random: &mut Random, memory: &mut Memory) {
    let (table, size) = record_table(random, memory);
    if let Some((one, two)) = two_records(random, table, size) {
        (0..size).for_each(|i| table.swap(one + i, two + i));
    }
}

fn copy(random: &mut Random, memory: &mut Memory) {
    let (table, size) = record_table(random, memory);
    if let Some((from, to)) = two_records(random, table, size) {
        table.copy_within(from..from + size, to);
    }
}

/// A record of a directory: a byte of it, a copy of another's bytes or name,
/// its name with a "/" or a zero, another file number, or blank.
fn entry(random: &mut Random, memory: &mut Memory) {
    let (one, two) = (entry_at(random, memory), entry_at(random, memory));
    let blocks = &mut memory.blocks;
    if blocks.len() < one.max(two) + 16 {
        return;
    }
    match random.below(6) {
        0 => byte(random, &mut blocks[one..one + 16]),
        1 => blocks.copy_within(one..one + 16, two),
        2 => blocks.copy_within(one + 2..one + 16, two + 2),
        3 => blocks[one + 2 + random.below(14)] = random.pick(b"/\0a"),
        4 => blocks[one] = random.below(8) as u8,
        _ => blocks[one..one + 16].fill(0),
    }
}

/// Where a record of a directory begins; the first of a block are the likeliest.
fn entry_at(random: &mut Random, memory: &Memory) -> usize {
    let most = random.pick(&[3, 8, 32]);
    512 * directory_block(random, memory) + 16 * random.below(most)
}

/// A block that a directory has, or any.
fn directory_block(random: &mut Random, memory: &Memory) -> usize {
    let (records, _) = memory.block_records.as_chunks::<4>();
    let is_directory = |&[a, b, ..]: &[u8; 4]| {
        let owner = usize::from(u16::from_le_bytes([a, b]));
        let kind = owner
            .checked_sub(1)
            .and_then(|f| memory.file_records.get(8 * f));
        kind == Some(&2)
    };
    let blocks = records.len().min(memory.blocks.len() / 512);
    let held: Vec<_> = (0..blocks).filter(|&b| is_directory(&records[b])).collect();
    match held.len() {
        0 if blocks == 0 => 0,
        0 => random.below(blocks),
        count => held[random.below(count)],
    }
}

/// Takes bytes or a whole record from the end of a table, or adds some.
fn resize(random: &mut Random, memory: &mut Memory) {
    let table = any_table(random, memory);
    let by = random.pick(&[1, 2, 4, 8, 16, 512]);
    let length = if random.chance(50) {
        table.len().saturating_sub(by)
    } else {
        table.len() + by
    };
    table.resize(length, 0);
}

/// Any bytes, most of them small, in one table or in all.
fn scramble(random: &mut Random, memory: &mut Memory) {
    let all = random.chance(30);
    let most = random.pick(&[2, 3, 5, 256]);
    let one = random.below(4);
    let tables = [
        &mut memory.blocks,
        &mut memory.block_records,
        &mut memory.file_records,
        &mut memory.channel_records,
    ];
    for (at, table) in tables.into_iter().enumerate() {
        if all || at == one {
            table.fill_with(|| random.below(most) as u8);
        }
    }
}
