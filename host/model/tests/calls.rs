//! What each call answers and changes.

use model::record::Kind;
use model::{Memory, Refusal, Room, Stat};

/// A prepared store over blocks of old bytes.
fn store(blocks: usize, files: usize, channels: usize) -> Memory {
    let mut memory = Memory::new(blocks, files, channels);
    memory.blocks.fill(7);
    memory.lend().prepare().unwrap();
    memory
}

/// A call that is refused and changes nothing.
fn refused<T: std::fmt::Debug + PartialEq>(
    memory: &mut Memory,
    why: Refusal,
    call: impl FnOnce(&mut model::Tables) -> Result<T, Refusal>,
) {
    let before = memory.clone();
    assert_eq!(call(&mut memory.lend()), Err(why));
    assert!(*memory == before, "a refused call changed something");
}

/// A call that is Ok and changes nothing.
fn idle(memory: &mut Memory, call: impl FnOnce(&mut model::Tables) -> Result<(), Refusal>) {
    let before = memory.clone();
    assert_eq!(call(&mut memory.lend()), Ok(()));
    assert!(*memory == before, "the call changed something");
}

/// All bytes of a file, read through a channel of its own.
fn content(memory: &Memory, name: &str) -> Vec<u8> {
    let mut copy = memory.clone();
    let mut tables = copy.lend();
    let cid = tables.open(name.as_bytes()).unwrap();
    let mut buffer = vec![1; 40_000];
    let count = tables.read(cid, &mut buffer).unwrap() as usize;
    assert!(buffer[count..].iter().all(|&b| b == 1));
    buffer.truncate(count);
    buffer
}

fn room(memory: &mut Memory) -> [u32; 3] {
    let Room {
        blocks,
        files,
        channels,
    } = memory.lend().room().unwrap();
    [blocks, files, channels]
}

/// A store with MONFRI in /x on channel 0.
fn monfri() -> Memory {
    let mut memory = store(4, 4, 2);
    memory.lend().create(b"/x").unwrap();
    memory.lend().write(0, b"MONFRI").unwrap();
    memory
}

fn read_at(memory: &mut Memory, position: u32, length: usize) -> Vec<u8> {
    let mut buffer = vec![0; length];
    memory.lend().seek(0, 0, position).unwrap();
    let count = memory.lend().read(0, &mut buffer).unwrap();
    assert_eq!(memory.lend().seek(0, 1, 0), Ok(position + count));
    buffer.truncate(count as usize);
    buffer
}

#[test]
fn p1_and_p5_reads() {
    let mut memory = monfri();
    assert_eq!(read_at(&mut memory, 2, 3), b"NFR");
    assert_eq!(read_at(&mut memory, 6, 3), b"");
    assert_eq!(read_at(&mut memory, 7, 3), b"");
    assert_eq!(read_at(&mut memory, 16_777_215, 3), b"");
    assert_eq!(read_at(&mut memory, 4, 9), b"RI");
}

#[test]
fn p2_to_p4_writes() {
    let mut memory = monfri();
    memory.lend().seek(0, 0, 3).unwrap();
    let before = memory.clone();
    assert_eq!(memory.lend().write(0, b""), Ok(0));
    assert_eq!(memory, before);
    memory.lend().seek(0, 0, 8).unwrap();
    assert_eq!(memory.lend().write(0, b"SU"), Ok(2));
    assert_eq!(content(&memory, "/x"), b"MONFRI\0\0SU");

    let mut memory = store(4, 4, 2);
    memory.lend().create(b"/x").unwrap();
    memory.lend().seek(0, 0, 4).unwrap();
    assert_eq!(memory.lend().write(0, b""), Ok(0));
    assert_eq!(content(&memory, "/x"), [0; 4]);
}

#[test]
fn p7_largest_file() {
    let mut memory = store(66, 4, 2);
    memory.lend().create(b"/x").unwrap();
    memory.lend().seek(0, 0, 32_767).unwrap();
    assert_eq!(memory.lend().write(0, b"z"), Ok(1));
    let stat = Stat {
        length: 32_768,
        file: 2,
        kind: Kind::Ordinary,
    };
    assert_eq!(memory.lend().fstat(0), Ok(stat));
    assert_eq!(memory.lend().write(0, b""), Ok(0));
    refused(&mut memory, Refusal::TooBig, |t| t.write(0, b"z"));
    assert_eq!(content(&memory, "/x")[32_766..], [0, b'z']);
}

#[test]
fn p10_and_p11_seeks() {
    for (mode, position) in [2, 5, 12, 1024, 1027, 1034].into_iter().enumerate() {
        let mut memory = store(2, 2, 1);
        memory.lend().create(b"/x").unwrap();
        memory.lend().write(0, &[1; 10]).unwrap();
        memory.lend().seek(0, 0, 3).unwrap();
        assert_eq!(memory.lend().seek(0, mode as u32, 2), Ok(position));
    }
    let mut memory = monfri();
    assert_eq!(memory.lend().seek(0, 3, 32_767), Ok(16_776_704));
    refused(&mut memory, Refusal::BadSeek, |t| t.seek(0, 3, 32_768));
}

/// Sums and products are taken in full; channel numbers never wrap.
#[test]
fn seeks_do_not_wrap() {
    let mut memory = monfri();
    assert_eq!(memory.lend().seek(0, 0, 16_777_215), Ok(16_777_215));
    assert_eq!(memory.lend().seek(0, 1, 0), Ok(16_777_215));
    refused(&mut memory, Refusal::BadSeek, |t| t.seek(0, 1, 1));
    refused(&mut memory, Refusal::BadSeek, |t| {
        t.seek(0, 1, u32::MAX - 16_777_214)
    });
    refused(&mut memory, Refusal::BadSeek, |t| t.seek(0, 0, 16_777_216));
    refused(&mut memory, Refusal::BadSeek, |t| t.seek(0, 3, 1 << 23));
    refused(&mut memory, Refusal::BadSeek, |t| t.seek(0, 5, u32::MAX));
    refused(&mut memory, Refusal::BadSeek, |t| t.seek(0, 6, 0));
    refused(&mut memory, Refusal::NoSuchCid, |t| t.seek(1, 6, 0));
    for cid in [1, 2, 15, 16, 256, 65_536, u32::MAX] {
        refused(&mut memory, Refusal::NoSuchCid, |t| t.seek(cid, 0, 0));
        refused(&mut memory, Refusal::NoSuchCid, |t| t.close(cid));
        refused(&mut memory, Refusal::NoSuchCid, |t| t.fstat(cid));
        refused(&mut memory, Refusal::NoSuchCid, |t| t.write(cid, b"x"));
        refused(&mut memory, Refusal::NoSuchCid, |t| {
            t.read(cid, &mut [0; 4])
        });
    }
}

#[test]
fn the_root_by_name() {
    let mut memory = monfri();
    refused(&mut memory, Refusal::IsDirectory, |t| t.create(b"/"));
    refused(&mut memory, Refusal::IsDirectory, |t| t.unlink(b"/"));
    refused(&mut memory, Refusal::IsDirectory, |t| t.link(b"/", b"/y"));
    refused(&mut memory, Refusal::IsDirectory, |t| t.link(b"/x", b"/"));
    refused(&mut memory, Refusal::IsDirectory, |t| t.r#move(b"/", b"/y"));
    refused(&mut memory, Refusal::IsDirectory, |t| t.r#move(b"/x", b"/"));
    refused(&mut memory, Refusal::NameInUse, |t| t.mkdir(b"/"));
    refused(&mut memory, Refusal::InUse, |t| t.rmdir(b"/"));
    assert_eq!(memory.lend().open(b"/"), Ok(1));
    let stat = Stat {
        length: 16,
        file: 1,
        kind: Kind::Directory,
    };
    assert_eq!(memory.lend().fstat(1), Ok(stat));
    assert_eq!(memory.lend().ls(b"/", &mut [0; 14]), Ok(1));
}

#[test]
fn bad_names_before_any_lookup() {
    let mut memory = monfri();
    for bad in [
        &b""[..],
        b"x",
        b"//",
        b"/x/",
        b"/a\0",
        b"/abcdefghijklmno",
        b"/1/2/3/4/5/6/7/8/9",
    ] {
        refused(&mut memory, Refusal::BadName, |t| t.create(bad));
        refused(&mut memory, Refusal::BadName, |t| t.open(bad));
        refused(&mut memory, Refusal::BadName, |t| t.unlink(bad));
        refused(&mut memory, Refusal::BadName, |t| t.link(b"/none", bad));
        refused(&mut memory, Refusal::BadName, |t| t.link(bad, b"/none"));
        refused(&mut memory, Refusal::BadName, |t| t.r#move(b"/none", bad));
        refused(&mut memory, Refusal::BadName, |t| t.r#move(bad, b"/none"));
        refused(&mut memory, Refusal::BadName, |t| t.ls(bad, &mut [0; 14]));
        refused(&mut memory, Refusal::BadName, |t| t.mkdir(bad));
        refused(&mut memory, Refusal::BadName, |t| t.rmdir(bad));
    }
}

#[test]
fn eight_syllables() {
    let mut memory = store(9, 10, 1);
    let name = b"/1/2/3/4/5/6/7";
    for end in (2..=14).step_by(2) {
        memory.lend().mkdir(&name[..end]).unwrap();
    }
    refused(&mut memory, Refusal::BadName, |t| {
        t.mkdir(b"/1/2/3/4/5/6/7/8")
    });
    refused(&mut memory, Refusal::NoSuchName, |t| {
        t.rmdir(b"/1/2/3/4/5/6/7/8")
    });
    assert_eq!(memory.lend().create(b"/1/2/3/4/5/6/7/8"), Ok(0));
    // also where the name exists
    refused(&mut memory, Refusal::BadName, |t| {
        t.mkdir(b"/1/2/3/4/5/6/7/8")
    });
    refused(&mut memory, Refusal::NotDirectory, |t| {
        t.rmdir(b"/1/2/3/4/5/6/7/8")
    });
    assert_eq!(memory.file_records[8 * 7..8 * 7 + 2], [2, 7]);
}

#[test]
fn an_ordinary_file_on_the_way() {
    let mut memory = monfri();
    let missing = Refusal::NoSuchName;
    for name in [&b"/x/y"[..], b"/x/y/z", b"/none/y"] {
        refused(&mut memory, missing, |t| t.create(name));
        refused(&mut memory, missing, |t| t.open(name));
        refused(&mut memory, missing, |t| t.link(b"/x", name));
        refused(&mut memory, missing, |t| t.link(name, b"/y"));
        refused(&mut memory, missing, |t| t.r#move(b"/x", name));
        refused(&mut memory, missing, |t| t.r#move(name, b"/y"));
        refused(&mut memory, missing, |t| t.unlink(name));
        refused(&mut memory, missing, |t| t.ls(name, &mut [0; 14]));
        refused(&mut memory, missing, |t| t.mkdir(name));
        refused(&mut memory, missing, |t| t.rmdir(name));
    }
    refused(&mut memory, Refusal::NotDirectory, |t| t.ls(b"/x", &mut []));
}

/// create of an existing name needs a channel and nothing else.
#[test]
fn create_empties() {
    let mut memory = store(2, 2, 2);
    memory.lend().create(b"/x").unwrap();
    memory.lend().write(0, b"MONFRI").unwrap();
    assert_eq!(memory.lend().create(b"/x"), Ok(1));
    assert_eq!(room(&mut memory), [1, 0, 0]);
    assert_eq!(content_through(&memory, 1), b"");
    refused(&mut memory, Refusal::NoFreeCids, |t| t.create(b"/x"));
    // the other channel kept its position; zeros stand before its next write
    assert_eq!(memory.lend().write(0, b"S"), Ok(1));
    assert_eq!(content_through(&memory, 1), b"\0\0\0\0\0\0S");
    refused(&mut memory, Refusal::NoFreeCids, |t| t.create(b"/x"));
    refused(&mut memory, Refusal::NoFreeCids, |t| t.create(b"/new"));
    memory.lend().close(1).unwrap();
    refused(&mut memory, Refusal::NoFreeFids, |t| t.create(b"/new"));
}

fn content_through(memory: &Memory, cid: u32) -> Vec<u8> {
    let mut copy = memory.clone();
    let mut buffer = vec![0; 40_000];
    copy.lend().seek(cid, 0, 0).unwrap();
    let count = copy.lend().read(cid, &mut buffer).unwrap();
    buffer.truncate(count as usize);
    buffer
}

#[test]
fn freed_blocks_keep_their_bytes() {
    let mut memory = monfri();
    memory.lend().write(0, &[b'm'; 512]).unwrap();
    assert_eq!(
        memory.block_records,
        [1, 0, 0, 0, 2, 0, 0, 0, 2, 0, 1, 0, 0, 0, 0, 0]
    );
    let blocks = memory.blocks.clone();
    memory.lend().create(b"/x").unwrap();
    assert_eq!(memory.blocks, blocks);
    assert_eq!(
        memory.block_records,
        [1, 0, 0, 0, 0, 0, 0, 0, 0, 0, 0, 0, 0, 0, 0, 0]
    );
    assert_eq!(
        memory.channel_records,
        [2, 0, 0, 0, 6, 2, 0, 0, 2, 0, 0, 0, 0, 0, 0, 0]
    );
}

/// A gap shows zeros, not an earlier owner's bytes; room past the end stays.
#[test]
fn gaps_are_zeroed() {
    let mut memory = monfri();
    memory.lend().create(b"/x").unwrap();
    memory.lend().seek(1, 0, 515).unwrap();
    assert_eq!(memory.lend().write(1, b"S"), Ok(1));
    assert_eq!(memory.blocks[512..1027], [0; 515]);
    assert_eq!(memory.blocks[1027..1030], [b'S', 7, 7]);
    assert_eq!(memory.block_records[4..12], [2, 0, 0, 0, 2, 0, 1, 0]);
    // within the last block too
    memory.lend().seek(1, 0, 520).unwrap();
    memory.lend().write(1, b"").unwrap();
    assert_eq!(memory.blocks[1027..1034], [b'S', 0, 0, 0, 0, 7, 7]);
}

/// Nothing is taken or written before NoRoom is answered.
#[test]
fn writes_without_room() {
    let mut memory = monfri();
    refused(&mut memory, Refusal::NoRoom, |t| t.write(0, &[1; 1531]));
    assert_eq!(memory.lend().write(0, &[1; 1530]), Ok(1530));
    assert_eq!(room(&mut memory), [0, 2, 1]);
    refused(&mut memory, Refusal::NoRoom, |t| t.write(0, b"x"));
    memory.lend().seek(0, 0, 32_768).unwrap();
    refused(&mut memory, Refusal::NoRoom, |t| t.write(0, b""));
    memory.lend().seek(0, 0, 32_769).unwrap();
    refused(&mut memory, Refusal::TooBig, |t| t.write(0, b""));
    memory.lend().seek(0, 0, 16_777_215).unwrap();
    refused(&mut memory, Refusal::TooBig, |t| t.write(0, b"x"));
}

/// An empty write at 32,768 needs 64 blocks.
#[test]
fn empty_writes_grow() {
    for (blocks, answer) in [(64, Err(Refusal::NoRoom)), (65, Ok(0))] {
        let mut memory = store(blocks, 2, 1);
        memory.lend().create(b"/x").unwrap();
        memory.lend().seek(0, 0, 32_768).unwrap();
        assert_eq!(memory.lend().write(0, b""), answer);
    }
}

/// New blocks are the lowest free ones, in rising place.
#[test]
fn lowest_blocks_in_rising_place() {
    let mut memory = store(6, 4, 3);
    memory.lend().create(b"/a").unwrap();
    memory.lend().write(0, &[b'a'; 600]).unwrap();
    memory.lend().create(b"/b").unwrap();
    memory.lend().write(1, b"b").unwrap();
    memory.lend().create(b"/a").unwrap();
    memory.lend().write(1, &[b'b'; 1500]).unwrap();
    let owners = [
        1, 0, 0, 0, 3, 0, 1, 0, 3, 0, 2, 0, 3, 0, 0, 0, 0, 0, 0, 0, 0, 0, 0, 0,
    ];
    assert_eq!(memory.block_records, owners);
    assert_eq!(content_through(&memory, 1), [b'b'; 1501]);
}

#[test]
fn directories_refuse_writes_and_are_read() {
    let mut memory = store(4, 4, 2);
    memory.lend().mkdir(b"/d").unwrap();
    assert_eq!(memory.lend().open(b"/"), Ok(0));
    refused(&mut memory, Refusal::IsDirectory, |t| t.write(0, b"x"));
    refused(&mut memory, Refusal::IsDirectory, |t| t.create(b"/d"));
    refused(&mut memory, Refusal::IsDirectory, |t| t.unlink(b"/d"));
    refused(&mut memory, Refusal::IsDirectory, |t| t.link(b"/d", b"/e"));
    refused(&mut memory, Refusal::IsDirectory, |t| {
        t.r#move(b"/d", b"/d")
    });
    let mut buffer = [1; 20];
    assert_eq!(memory.lend().read(0, &mut buffer), Ok(16));
    assert_eq!(buffer[..3], [2, 0, b'd']);
    assert_eq!(buffer[16..], [1; 4]);
}

#[test]
fn links() {
    let mut memory = monfri();
    memory.lend().link(b"/x", b"/y").unwrap();
    idle(&mut memory, |t| t.link(b"/x", b"/x"));
    idle(&mut memory, |t| t.link(b"/x", b"/y"));
    idle(&mut memory, |t| t.link(b"/y", b"/x"));
    // what is replaced is freed at once, and keeps its record's place
    memory.lend().create(b"/z").unwrap();
    memory.lend().write(1, b"Z").unwrap();
    memory.lend().link(b"/x", b"/z").unwrap();
    assert_eq!(room(&mut memory), [1, 1, 0]);
    memory.lend().close(1).unwrap();
    assert_eq!(room(&mut memory), [2, 2, 1]);
    assert_eq!(memory.blocks[32..35], [2, 0, b'z']);
    assert_eq!(content(&memory, "/z"), b"MONFRI");
}

#[test]
fn moves() {
    let mut memory = monfri();
    memory.lend().r#move(b"/x", b"/y").unwrap();
    assert_eq!(memory.blocks[..19], [&[0; 16][..], &[2, 0, b'y']].concat());
    memory.lend().link(b"/y", b"/x").unwrap();
    // two names of one file: the old one goes
    memory.lend().r#move(b"/y", b"/x").unwrap();
    refused(&mut memory, Refusal::NoSuchName, |t| t.open(b"/y"));
    // a name moved to itself goes
    memory.lend().r#move(b"/x", b"/x").unwrap();
    refused(&mut memory, Refusal::NoSuchName, |t| t.open(b"/x"));
    assert_eq!(room(&mut memory), [2, 2, 1]);
    memory.lend().close(0).unwrap();
    assert_eq!(room(&mut memory), [3, 3, 2]);
}

/// move needs the room of its link, though the old record is blank after it.
#[test]
fn moves_without_room() {
    let mut memory = store(1, 2, 1);
    memory.lend().create(b"/00").unwrap();
    for n in 1..32 {
        memory
            .lend()
            .link(b"/00", format!("/{n:02}").as_bytes())
            .unwrap();
    }
    refused(&mut memory, Refusal::NoRoom, |t| t.link(b"/00", b"/new"));
    refused(&mut memory, Refusal::NoRoom, |t| t.r#move(b"/00", b"/new"));
    memory.lend().unlink(b"/31").unwrap();
    memory.lend().r#move(b"/00", b"/new").unwrap();
    assert_eq!(memory.blocks[..2], [0, 0]);
    assert_eq!(memory.blocks[31 * 16..31 * 16 + 5], *b"\x02\0new");
}

/// A full directory refuses a new record, before any block is looked for.
#[test]
fn full_directories() {
    let mut memory = store(65, 4, 2);
    memory.lend().create(b"/x").unwrap();
    for n in 1..2048 {
        memory
            .lend()
            .link(b"/x", format!("/{n}").as_bytes())
            .unwrap();
    }
    assert_eq!(room(&mut memory), [1, 2, 1]);
    memory.lend().write(0, b"x").unwrap();
    refused(&mut memory, Refusal::TooBig, |t| t.link(b"/x", b"/new"));
    refused(&mut memory, Refusal::TooBig, |t| t.r#move(b"/x", b"/new"));
    refused(&mut memory, Refusal::TooBig, |t| t.create(b"/new"));
    refused(&mut memory, Refusal::TooBig, |t| t.mkdir(b"/new"));
    memory.lend().unlink(b"/7").unwrap();
    memory.lend().mkdir(b"/new").unwrap();
    assert_eq!(memory.blocks[7 * 16..7 * 16 + 5], *b"\x03\0new");
    refused(&mut memory, Refusal::OutShort, |t| {
        t.ls(b"/", &mut [1; 28_671])
    });
    assert_eq!(memory.lend().ls(b"/", &mut [1; 28_672]), Ok(2048));
}

/// A new record takes the first blank one, and the directory does not shrink.
#[test]
fn records_are_used_again() {
    let mut memory = store(4, 5, 1);
    for name in ["/d", "/e", "/f"] {
        memory.lend().mkdir(name.as_bytes()).unwrap();
    }
    memory.lend().rmdir(b"/d").unwrap();
    memory.lend().rmdir(b"/e").unwrap();
    assert_eq!(memory.blocks[..32], [0; 32]);
    assert_eq!(memory.blocks[32..35], [4, 0, b'f']);
    assert_eq!(memory.file_records[4], 48);
    memory.lend().mkdir(b"/g").unwrap();
    assert_eq!(memory.blocks[..3], [2, 0, b'g']);
    assert_eq!(memory.blocks[48..52], [7; 4]);
}

#[test]
fn files_live_while_named_or_held() {
    let mut memory = monfri();
    memory.lend().unlink(b"/x").unwrap();
    assert_eq!(room(&mut memory), [2, 2, 1]);
    assert_eq!(content_through(&memory, 0), b"MONFRI");
    let blocks = memory.blocks.clone();
    memory.lend().close(0).unwrap();
    assert_eq!(room(&mut memory), [3, 3, 2]);
    assert_eq!(memory.file_records[8..16], [0; 8]);
    assert_eq!(memory.channel_records, [0; 16]);
    assert_eq!(memory.blocks, blocks);
    refused(&mut memory, Refusal::NoSuchCid, |t| t.close(0));
}

#[test]
fn removing_directories() {
    let mut memory = store(4, 4, 2);
    memory.lend().mkdir(b"/d").unwrap();
    memory.lend().create(b"/d/x").unwrap();
    refused(&mut memory, Refusal::NotEmpty, |t| t.rmdir(b"/d"));
    memory.lend().open(b"/d").unwrap();
    // InUse before NotEmpty
    refused(&mut memory, Refusal::InUse, |t| t.rmdir(b"/d"));
    memory.lend().unlink(b"/d/x").unwrap();
    refused(&mut memory, Refusal::InUse, |t| t.rmdir(b"/d"));
    // closing a channel of a directory frees nothing
    let before = room(&mut memory);
    memory.lend().close(1).unwrap();
    assert_eq!(room(&mut memory), [before[0], before[1], before[2] + 1]);
    // the file that was within is still held by channel 0
    memory.lend().rmdir(b"/d").unwrap();
    assert_eq!(room(&mut memory), [3, 2, 1]);
    refused(&mut memory, Refusal::NoSuchName, |t| t.rmdir(b"/d"));
    refused(&mut memory, Refusal::NoSuchName, |t| t.ls(b"/d", &mut []));
}

#[test]
fn making_directories() {
    let mut memory = store(1, 3, 2);
    memory.lend().mkdir(b"/d").unwrap();
    refused(&mut memory, Refusal::NameInUse, |t| t.mkdir(b"/d"));
    refused(&mut memory, Refusal::NoRoom, |t| t.mkdir(b"/d/e"));
    refused(&mut memory, Refusal::NoRoom, |t| t.create(b"/d/e"));
    memory.lend().create(b"/x").unwrap();
    refused(&mut memory, Refusal::NameInUse, |t| t.mkdir(b"/x"));
    // no record is filled before a file number is found
    refused(&mut memory, Refusal::NoFreeFids, |t| t.mkdir(b"/e"));
    refused(&mut memory, Refusal::NoFreeFids, |t| t.mkdir(b"/d/e"));
    refused(&mut memory, Refusal::NoFreeFids, |t| t.create(b"/e"));
    refused(&mut memory, Refusal::NoRoom, |t| t.link(b"/x", b"/d/e"));
}

#[test]
fn listing_buffers() {
    let mut memory = store(4, 4, 2);
    memory.lend().mkdir(b"/d").unwrap();
    memory.lend().mkdir(b"/e").unwrap();
    memory.lend().mkdir(b"/f").unwrap();
    memory.lend().rmdir(b"/e").unwrap();
    let mut buffer = [1; 27];
    refused(&mut memory, Refusal::OutShort, |t| t.ls(b"/", &mut buffer));
    assert_eq!(buffer, [1; 27]);
    let mut buffer = [1; 30];
    assert_eq!(memory.lend().ls(b"/", &mut buffer), Ok(2));
    assert_eq!(
        buffer[..28],
        *b"d\0\0\0\0\0\0\0\0\0\0\0\0\0f\0\0\0\0\0\0\0\0\0\0\0\0\0"
    );
    assert_eq!(buffer[28..], [1; 2]);
    assert_eq!(memory.lend().ls(b"/d", &mut []), Ok(0));
}

#[test]
fn prepare_forgets_everything() {
    let mut memory = monfri();
    let blocks = memory.blocks.clone();
    memory.lend().prepare().unwrap();
    assert_eq!(memory.blocks, blocks);
    assert_eq!(memory.block_records, [0; 16]);
    assert_eq!(memory.channel_records, [0; 16]);
    assert_eq!(memory.file_records[..8], [2, 0, 0, 0, 0, 0, 0, 0]);
    assert_eq!(memory.file_records[8..], [0; 24]);
}
