//! Random calls.

use model::random::Random;
use model::{Call, Memory};

/// Names that stand for something often, since they are few.
const COMMON: [&[u8]; 18] = [
    b"/a", b"/a", b"/b", b"/b", b"/c", b"/d", b"/d", b"/d", b"/d/a", b"/d/b", b"/d/e", b"/d/e/a",
    b"/d/e/b", b"/d/e/f", b"/g", b"/g/a", b"/g/h", b"/",
];
/// Names of the directories among them.
const DIRECTORIES: [&[u8]; 6] = [b"/d", b"/d", b"/d/e", b"/g", b"/d/e/f", b"/g/h"];
/// Names at the edges of the rules, and off them.
const RARE: [&[u8]; 22] = [
    b"",
    b"a",
    b"//",
    b"//a",
    b"/a/",
    b"/a/b",
    b"/d/a/b",
    b"/none/a",
    b"/.",
    b"/..",
    b"/d/./a",
    b"/a\0",
    b"/d\0/a",
    b"/ \n\xff",
    b"/abcdefghijklmn",
    b"/abcdefghijklmno",
    b"/d/abcdefghijklmn",
    b"/d/abcdefghijklmno",
    b"/d/d/d/d/d/d/d",
    b"/d/d/d/d/d/d/d/d",
    b"/d/d/d/d/d/d/d/d/d",
    b"/d/e/f/g/h/i/j/k",
];
const NUMBERS: [u32; 20] = [
    0,
    1,
    3,
    10,
    100,
    500,
    511,
    512,
    513,
    1024,
    1536,
    4096,
    32_255,
    32_256,
    32_767,
    32_768,
    32_769,
    16_777_215,
    16_777_216,
    u32::MAX,
];
const MOST_DATA: usize = 33_000;

/// How many names are kept in mind.
const KNOWN: usize = 24;

/// A source of calls, with what they are given.
pub struct Caller {
    pub random: Random,
    data: Vec<u8>,
    /// A name that is likely to stand for something, and one to make.
    old: Vec<u8>,
    new: Vec<u8>,
    /// Whether the last call makes its new name, and takes its old one.
    makes: bool,
    takes: bool,
    /// Names that are likely to stand for something.
    known: Vec<Vec<u8>>,
}

impl Caller {
    pub fn new(seed: u64) -> Caller {
        let mut random = Random::new(seed);
        let data = (0..MOST_DATA).map(|_| random.number() as u8).collect();
        Caller {
            random,
            data,
            old: Vec::new(),
            new: Vec::new(),
            makes: false,
            takes: false,
            known: Vec::new(),
        }
    }

    /// A call on a store, and how many bytes are lent with it.
    pub fn call(&mut self, memory: &Memory) -> (Call<'_>, usize) {
        let random = &mut self.random;
        name(random, &mut self.new);
        match self.known.len() {
            0 => name(random, &mut self.old),
            _ if random.chance(15) => name(random, &mut self.old),
            count => self.old.clone_from(&self.known[random.below(count)]),
        }
        let cid = channel(random, &memory.channel_records);
        let kind = random.below(100);
        let call = match kind {
            0..=11 => Call::Create(&self.new),
            12..=17 => Call::Open(&self.old),
            18..=23 => Call::Close(cid),
            24..=32 => Call::Read(cid),
            33..=46 => {
                let most = random.pick(&[1, 20, 20, 600, 600, 3000, MOST_DATA]);
                let count = random.below(most);
                let from = random.below(MOST_DATA - count);
                Call::Write(cid, &self.data[from..from + count])
            }
            47..=55 => Call::Seek(cid, mode(random), random.pick(&NUMBERS)),
            56..=58 => Call::Fstat(cid),
            59..=67 => Call::Link(&self.old, &self.new),
            68..=73 => Call::Unlink(&self.old),
            74..=80 => Call::Move(&self.old, &self.new),
            81..=84 => Call::Ls(&self.old),
            85..=92 => {
                if random.chance(60) {
                    self.new.clear();
                    self.new.extend(random.pick(&DIRECTORIES));
                }
                Call::Mkdir(&self.new)
            }
            93..=97 => Call::Rmdir(&self.old),
            98 => Call::Room,
            _ if random.chance(10) => Call::Prepare,
            _ => Call::Room,
        };
        self.makes = matches!(kind, 0..=11 | 59..=67 | 74..=80 | 85..=92);
        self.takes = matches!(kind, 68..=80 | 93..=97);
        let lent = match random.below(20) {
            0 => random.below(33_000),
            1..=4 => random.below(1200),
            _ => random.below(60),
        };
        (call, lent)
    }

    /// Keeps in mind what the last call made and took, when it was accepted.
    pub fn told(&mut self, report: u32) {
        if report != 0 {
            return;
        }
        if self.takes {
            self.known.retain(|name| *name != self.old);
        }
        if self.makes && self.new != self.old {
            if self.known.len() == KNOWN {
                let at = self.random.below(KNOWN);
                self.known.swap_remove(at);
            }
            self.known.push(self.new.clone());
        }
    }

    /// Tells of a name that stands for something.
    pub fn knows(mut self, name: &[u8]) -> Caller {
        self.known.push(name.to_vec());
        self
    }
}

fn name(random: &mut Random, out: &mut Vec<u8>) {
    out.clear();
    match random.below(20) {
        0 => out.extend(random.pick(&RARE)),
        1 => any_name(random, out),
        // many names in one directory
        2 => out.extend(format!("/d/n{}", random.below(60)).bytes()),
        // a way down
        3 => {
            (0..=random.below(8)).for_each(|_| out.extend(b"/d"));
            out.extend(random.pick::<&[u8]>(&[b"", b"/a"]));
        }
        _ => out.extend(random.pick(&COMMON)),
    }
}

/// Up to nine syllables of up to sixteen bytes, most of them few.
fn any_name(random: &mut Random, out: &mut Vec<u8>) {
    let most = random.pick(&[2, 3, 9]);
    for _ in 0..=random.below(most) {
        out.push(b'/');
        let most = random.pick(&[1, 2, 15]);
        let length = 1 + random.below(most);
        let letters: &[u8] = if random.chance(90) {
            b"abdefg"
        } else {
            b"d\0/\xff."
        };
        out.extend((0..length).map(|_| random.pick(letters)));
    }
}

/// A channel in use mostly, else any in range, seldom another number.
fn channel(random: &mut Random, records: &[u8]) -> u32 {
    let (records, _) = records.as_chunks::<8>();
    let count = records.len().max(1);
    if random.chance(3) {
        return random.pick(&[count as u32, 16, 255, 256, 65_535, 65_536, u32::MAX]);
    }
    let from = random.below(count);
    let used = (from..records.len()).find(|&at| records[at] != [0; 8]);
    match used {
        Some(at) if random.chance(90) => at as u32,
        _ => random.below(count) as u32,
    }
}

fn mode(random: &mut Random) -> u32 {
    if random.chance(97) {
        random.below(6) as u32
    } else {
        random.pick(&[6, 7, 256, u32::MAX])
    }
}
