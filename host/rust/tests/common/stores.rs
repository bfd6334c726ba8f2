//! Stores of many sizes to begin with.

use model::random::Random;
use model::Memory;

/// Blocks, files and channels.
pub type Sizes = (usize, usize, usize);

/// Small sizes, where calls soon run out of room.
pub fn small(random: &mut Random) -> Sizes {
    (
        1 + random.below(8),
        1 + random.below(10),
        1 + random.below(4),
    )
}

/// Sizes of the whole range, the ends more often.
pub fn any(random: &mut Random) -> Sizes {
    let mut of = |most| match random.below(8) {
        0 => 1,
        1 => most,
        _ => 1 + random.below(most),
    };
    (of(128), of(64), of(16))
}

/// A prepared store over blocks of any bytes.
pub fn prepared(random: &mut Random, (blocks, files, channels): Sizes) -> Memory {
    let mut memory = Memory::prepared(blocks, files, channels);
    let fill = random.number() as u8;
    memory.blocks.fill(fill);
    memory
}

/// The largest tables: /d has so many records, all of them names of /a.
pub fn with_directory(records: usize) -> Memory {
    filled(Memory::prepared(128, 64, 16), records)
}

/// The same in tables that leave no free block.
pub fn with_tight_directory(records: usize) -> Memory {
    filled(Memory::prepared(1 + records.div_ceil(32), 5, 3), records)
}

fn filled(mut memory: Memory, records: usize) -> Memory {
    let mut tables = memory.lend();
    tables.mkdir(b"/d").expect("room");
    tables.create(b"/a").expect("room");
    for n in 0..records {
        let name = format!("/d/n{n}");
        tables.link(b"/a", name.as_bytes()).expect("room");
    }
    memory
}

/// The names on the way down to the deepest directory, and of a file in it.
pub fn way_down() -> Vec<Vec<u8>> {
    let mut names: Vec<_> = (1..=7).map(|depth| b"/d".repeat(depth)).collect();
    names.push([&names[6][..], b"/a"].concat());
    names
}

/// A store as deep as can be.
pub fn deep() -> Memory {
    let mut memory = Memory::prepared(16, 12, 4);
    let mut tables = memory.lend();
    let names = way_down();
    let (file, directories) = names.split_last().expect("not empty");
    for name in directories {
        tables.mkdir(name).expect("room");
    }
    let channel = tables.create(file).expect("room");
    tables.write(channel, b"MONFRI").expect("room");
    memory
}
