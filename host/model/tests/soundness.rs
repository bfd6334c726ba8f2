//! What a sound store is, on tables that break one rule each.

use model::{Memory, Refusal, Room};

/// The root names d (file 2) and x (file 3); d has a blank record and y
/// (file 3); file 4 has channel 1 alone; channel 0 is on d; file 5 is free.
/// Block 0 is the root's, 1 is d's, 2 is file 3's, 3 is free.
fn sample() -> Memory {
    let mut memory = Memory::new(4, 5, 3);
    memory.blocks.fill(9);
    let mut tables = memory.lend();
    tables.prepare().unwrap();
    tables.mkdir(b"/d").unwrap();
    tables.create(b"/d/z").unwrap();
    tables.write(0, b"abc").unwrap();
    tables.create(b"/x").unwrap();
    tables.link(b"/d/z", b"/x").unwrap();
    tables.link(b"/d/z", b"/d/y").unwrap();
    tables.unlink(b"/d/z").unwrap();
    tables.close(0).unwrap();
    tables.open(b"/d").unwrap();
    memory
}

fn is_sound(mut memory: Memory) -> bool {
    let before = memory.clone();
    let answer = memory.lend().room();
    assert_eq!(memory, before);
    assert!(matches!(answer, Ok(_) | Err(Refusal::NotAStore)));
    answer.is_ok()
}

#[derive(Clone, Copy, Debug)]
enum Table {
    Blocks,
    BlockRecords,
    FileRecords,
    ChannelRecords,
}
use Table::*;

fn changed(table: Table, at: usize, bytes: &[u8]) -> Memory {
    let mut memory = sample();
    let table = match table {
        Blocks => &mut memory.blocks,
        BlockRecords => &mut memory.block_records,
        FileRecords => &mut memory.file_records,
        ChannelRecords => &mut memory.channel_records,
    };
    table[at..at + bytes.len()].copy_from_slice(bytes);
    memory
}

fn broken_by(table: Table, at: usize, bytes: &[u8]) {
    assert!(
        !is_sound(changed(table, at, bytes)),
        "{table:?} {at} {bytes:?}"
    );
}

fn kept_by(table: Table, at: usize, bytes: &[u8]) {
    assert!(
        is_sound(changed(table, at, bytes)),
        "{table:?} {at} {bytes:?}"
    );
}

#[test]
fn the_sample() {
    let memory = sample();
    assert_eq!(
        memory.block_records,
        [1, 0, 0, 0, 2, 0, 0, 0, 3, 0, 0, 0, 0, 0, 0, 0]
    );
    assert_eq!(
        &memory.file_records[..16],
        [2, 0, 0, 0, 32, 0, 0, 0, 2, 1, 0, 0, 32, 0, 0, 0]
    );
    assert_eq!(
        &memory.file_records[16..32],
        [1, 0, 0, 0, 3, 0, 0, 0, 1, 0, 0, 0, 0, 0, 0, 0]
    );
    assert_eq!(
        memory.channel_records[..16],
        [2, 0, 0, 0, 0, 0, 0, 0, 4, 0, 0, 0, 0, 0, 0, 0]
    );
    assert_eq!(&memory.blocks[..3], [2, 0, b'd']);
    assert_eq!(&memory.blocks[16..19], [3, 0, b'x']);
    assert_eq!(memory.blocks[512..528], [0; 16]);
    assert_eq!(&memory.blocks[528..531], [3, 0, b'y']);
    assert!(is_sound(memory));
}

#[test]
fn bytes_that_play_no_part() {
    kept_by(Blocks, 1024, &[0, 47, 255]);
    kept_by(Blocks, 1536, &[1, 2, 3]);
    kept_by(Blocks, 32, &[1, 0, 47]);
    kept_by(Blocks, 544, &[5, 0]);
}

#[test]
fn table_lengths() {
    for (blocks, files, channels) in [(1, 1, 1), (128, 64, 16), (3, 64, 1), (128, 1, 16)] {
        let mut memory = Memory::prepared(blocks, files, channels);
        let room = Room {
            blocks: blocks as u32,
            files: files as u32 - 1,
            channels: channels as u32,
        };
        assert_eq!(memory.lend().room(), Ok(room));
        for cut in 0..4 {
            let mut short = memory.clone();
            let table = match cut {
                0 => &mut short.blocks,
                1 => &mut short.block_records,
                2 => &mut short.file_records,
                _ => &mut short.channel_records,
            };
            table.pop();
            let before = short.clone();
            assert_eq!(short.lend().room(), Err(Refusal::NotAStore));
            assert_eq!(short.lend().prepare(), Err(Refusal::NotAStore));
            assert_eq!(short, before);
        }
    }
    for (blocks, files, channels) in [
        (0, 1, 1),
        (1, 0, 1),
        (1, 1, 0),
        (129, 1, 1),
        (1, 65, 1),
        (1, 1, 17),
    ] {
        let mut memory = Memory::new(blocks, files, channels);
        assert_eq!(memory.lend().prepare(), Err(Refusal::NotAStore));
    }
    let mut memory = Memory::prepared(4, 4, 4);
    memory.blocks.truncate(512 * 3);
    assert_eq!(memory.lend().prepare(), Err(Refusal::NotAStore));
}

#[test]
fn file_records() {
    // half free, kinds, depths, lengths
    broken_by(FileRecords, 33, &[1]);
    broken_by(FileRecords, 35, &[1]);
    broken_by(FileRecords, 36, &[1]);
    broken_by(FileRecords, 24, &[3]);
    broken_by(FileRecords, 25, &[1]);
    broken_by(FileRecords, 9, &[8]);
    broken_by(FileRecords, 12, &[33]);
    broken_by(FileRecords, 31, &[1]);
    // the two zeros of a record in use
    broken_by(FileRecords, 26, &[1]);
    broken_by(FileRecords, 27, &[1]);
    broken_by(FileRecords, 10, &[1]);
    // file 1, and no other, is a directory of depth 0
    broken_by(FileRecords, 9, &[0]);
    broken_by(FileRecords, 1, &[1]);
    broken_by(FileRecords, 0, &[1]);
    broken_by(FileRecords, 0, &[0; 8]);
    // another length with as many blocks
    kept_by(FileRecords, 20, &[0, 2]);
    broken_by(FileRecords, 20, &[1, 2]);
    broken_by(FileRecords, 20, &[0, 0]);
}

#[test]
fn lengths_up_to_32768() {
    let mut memory = Memory::prepared(66, 3, 1);
    memory.lend().create(b"/x").unwrap();
    memory.lend().seek(0, 0, 32_768).unwrap();
    memory.lend().write(0, b"").unwrap();
    assert!(is_sound(memory.clone()));
    memory.file_records[12] = 1;
    memory.block_records[65 * 4..].copy_from_slice(&[2, 0, 64, 0]);
    assert!(!is_sound(memory));
}

#[test]
fn block_records() {
    // half free, an owner free or beyond, a place beyond, twice, missing
    broken_by(BlockRecords, 14, &[1]);
    broken_by(BlockRecords, 12, &[5]);
    broken_by(BlockRecords, 12, &[6]);
    broken_by(BlockRecords, 13, &[1]);
    broken_by(BlockRecords, 12, &[3, 0, 1, 0]);
    broken_by(BlockRecords, 12, &[3, 0, 0, 1]);
    broken_by(BlockRecords, 12, &[3, 0, 0, 0]);
    broken_by(BlockRecords, 12, &[4, 0, 0, 0]);
    broken_by(BlockRecords, 8, &[0]);
}

#[test]
fn channel_records() {
    // half free, a file free or beyond, the two zeros, a position too high
    broken_by(ChannelRecords, 20, &[1]);
    broken_by(ChannelRecords, 18, &[1]);
    broken_by(ChannelRecords, 0, &[5]);
    broken_by(ChannelRecords, 0, &[6]);
    broken_by(ChannelRecords, 1, &[1]);
    broken_by(ChannelRecords, 2, &[1]);
    broken_by(ChannelRecords, 3, &[1]);
    broken_by(ChannelRecords, 7, &[1]);
    kept_by(ChannelRecords, 4, &[255, 255, 255, 0]);
    kept_by(ChannelRecords, 0, &[1]);
    kept_by(ChannelRecords, 0, &[0; 8]);
}

#[test]
fn directory_records() {
    // a half-blank record
    broken_by(Blocks, 512, &[3]);
    broken_by(Blocks, 514, b"a");
    broken_by(Blocks, 527, &[1]);
    // a file that is free, beyond, or the root
    broken_by(Blocks, 16, &[5]);
    broken_by(Blocks, 16, &[6]);
    broken_by(Blocks, 17, &[1]);
    broken_by(Blocks, 16, &[1]);
    // no name, a "/", a byte behind the zero, a name twice
    broken_by(Blocks, 18, &[0]);
    broken_by(Blocks, 18, b"/");
    broken_by(Blocks, 19, b"a/");
    broken_by(Blocks, 20, &[1]);
    broken_by(Blocks, 31, &[1]);
    broken_by(Blocks, 18, b"d");
    // any other byte may stand in a name
    kept_by(Blocks, 18, &[32, 10, 128, 255, 1]);
    kept_by(Blocks, 18, b"0123456789abcd");
    kept_by(Blocks, 18, b"..");
    // an ordinary file may have several names in one directory
    kept_by(Blocks, 512, &[3, 0, b'z']);
}

#[test]
fn names_of_files() {
    // a directory without a name (a channel does not stand in for it), with
    // two, in a directory not one less deep
    broken_by(Blocks, 0, &[0; 16]);
    broken_by(Blocks, 16, &[2]);
    broken_by(Blocks, 528, &[2]);
    broken_by(FileRecords, 9, &[2]);
    broken_by(Blocks, 512, &[2, 0, b'z']);
    // an ordinary file with neither a name nor a channel
    broken_by(ChannelRecords, 8, &[0; 8]);
    broken_by(ChannelRecords, 8, &[3]);
    kept_by(Blocks, 16, &[0; 16]);
}

#[test]
fn names_twice_in_a_long_directory() {
    let mut memory = Memory::prepared(8, 2, 1);
    memory.lend().create(b"/0").unwrap();
    for n in 1..100 {
        memory
            .lend()
            .link(b"/0", format!("/{n}").as_bytes())
            .unwrap();
    }
    assert!(is_sound(memory.clone()));
    memory.lend().unlink(b"/50").unwrap();
    memory.lend().unlink(b"/51").unwrap();
    assert!(is_sound(memory.clone()));
    let last = 99 * 16;
    memory.blocks[last + 2..last + 4].copy_from_slice(b"7\0");
    assert!(!is_sound(memory));
}

#[test]
fn soundness_comes_first() {
    let mut memory = changed(FileRecords, 0, &[7]);
    let before = memory.clone();
    let mut tables = memory.lend();
    let mut buffer = [1; 20];
    let refused = Refusal::NotAStore;
    assert_eq!(tables.create(b"bad"), Err(refused));
    assert_eq!(tables.open(b"bad"), Err(refused));
    assert_eq!(tables.close(99), Err(refused));
    assert_eq!(tables.read(99, &mut buffer), Err(refused));
    assert_eq!(tables.write(99, b"x"), Err(refused));
    assert_eq!(tables.seek(99, 9, 0), Err(refused));
    assert_eq!(tables.fstat(99), Err(refused));
    assert_eq!(tables.link(b"bad", b"bad"), Err(refused));
    assert_eq!(tables.unlink(b"bad"), Err(refused));
    assert_eq!(tables.r#move(b"bad", b"bad"), Err(refused));
    assert_eq!(tables.ls(b"bad", &mut buffer), Err(refused));
    assert_eq!(tables.mkdir(b"bad"), Err(refused));
    assert_eq!(tables.rmdir(b"bad"), Err(refused));
    assert_eq!(tables.room(), Err(refused));
    assert_eq!(buffer, [1; 20]);
    assert_eq!(memory, before);
    // prepare mends it, and blocks keep their bytes
    memory.lend().prepare().unwrap();
    assert_eq!(
        memory.lend().room(),
        Ok(Room {
            blocks: 4,
            files: 4,
            channels: 3
        })
    );
    assert_eq!(memory.blocks, before.blocks);
}

/// No tables make a call panic, and a refused call changes nothing.
#[test]
fn tables_of_any_contents() {
    let mut random = model::random::Random::new(1);
    let mut sound = 0;
    for _ in 0..20_000 {
        let mut memory = sample();
        for _ in 0..1 + random.below(3) {
            let table = match random.below(4) {
                0 => &mut memory.blocks[..],
                1 => &mut memory.block_records[..],
                2 => &mut memory.file_records[..],
                _ => &mut memory.channel_records[..],
            };
            let at = random.below(table.len().min(600));
            table[at] = random.pick(&[0, 1, 2, 3, 4, 5, 47, 128, 255]);
        }
        let before = memory.clone();
        if memory.lend().link(b"/x", b"/d/n").is_ok() {
            sound += 1;
            assert!(is_sound(memory));
        } else {
            assert_eq!(memory, before);
        }
    }
    assert!(sound > 1000, "{sound}");
}
