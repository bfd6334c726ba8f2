//! Rows of random calls on stores of many sizes.

use model::random::Random;
use model::{Call, Memory};

const NAMES: [&[u8]; 14] = [
    b"/", b"/a", b"/b", b"/c", b"/d", b"/d/x", b"/d/y", b"/d/e", b"/d/e/x", b"/d/e/f", b"/g",
    b"/g/x", b"//", b"/none/x",
];
const DATA: [u8; 3000] = [b'd'; 3000];

fn call(random: &mut Random) -> Call<'static> {
    let name = random.pick(&NAMES);
    let other = random.pick(&NAMES);
    let cid = random.below(4) as u32;
    match random.below(22) {
        0..=2 => Call::Create(name),
        3..=4 => Call::Open(name),
        5..=6 => Call::Close(cid),
        7..=8 => Call::Read(cid),
        9..=12 => {
            let most = random.pick(&[1, 20, 600, DATA.len()]);
            Call::Write(cid, &DATA[..random.below(most)])
        }
        13..=14 => {
            let n = random.pick(&[0, 1, 5, 500, 512, 1025, 9000, 32_768, 40_000]);
            Call::Seek(cid, random.below(7) as u32, n)
        }
        15 => Call::Fstat(cid),
        16 => Call::Link(name, other),
        17 => Call::Unlink(name),
        18 => Call::Move(name, other),
        19 => Call::Ls(name),
        20 => Call::Mkdir(name),
        _ => Call::Rmdir(name),
    }
}

/// Blocks that the file records need.
fn needed(memory: &Memory) -> usize {
    let (records, _) = memory.file_records.as_chunks::<8>();
    let length = |r: &[u8; 8]| u32::from_le_bytes([r[4], r[5], r[6], r[7]]) as usize;
    records.iter().map(|r| length(r).div_ceil(512)).sum()
}

/// An accepted call leaves a sound store whose blocks are all accounted for,
/// a refused one leaves every byte.
#[test]
fn rows_of_calls() {
    let mut accepted = 0;
    let mut reports = [0; 16];
    for seed in 0..300 {
        let mut random = Random::new(seed);
        let blocks = 1 + random.below(size_limit(seed, 128));
        let files = 1 + random.below(size_limit(seed, 64));
        let channels = 1 + random.below(size_limit(seed, 16));
        let mut memory = Memory::prepared(blocks, files, channels);
        for _ in 0..100 {
            let call = call(&mut random);
            let before = memory.clone();
            let lent = random.below(60);
            let mut buffer = vec![1; lent];
            let answer = call.perform(&mut memory.lend(), &mut buffer);
            let filled = call.filled(&answer);
            assert!(
                buffer[filled..].iter().all(|&b| b == 1),
                "seed {seed}: {call:?}"
            );
            reports[answer.report as usize] += 1;
            if answer.is_ok() {
                accepted += 1;
                let room = memory.lend().room().expect("sound after an accepted call");
                assert_eq!(
                    room.blocks as usize + needed(&memory),
                    blocks,
                    "seed {seed}"
                );
            } else {
                assert!(memory == before, "seed {seed}: {call:?}");
                assert!(answer.values().iter().all(|&v| v == 0));
            }
        }
    }
    println!("300 rows of 100 calls, {accepted} accepted, reports {reports:?}");
    assert_eq!(reports[1], 0);
    assert!(reports[2..].iter().all(|&count| count > 0), "{reports:?}");
}

/// Small stores mostly, now and then of any size.
fn size_limit(seed: u64, most: usize) -> usize {
    if seed.is_multiple_of(4) {
        most
    } else {
        most.min(6)
    }
}
