//! The bytes of stack that each exported call uses.
//!
//! A call runs on a stack of its own that was painted before: the lowest byte
//! that lost its paint tells how deep it went.

#![cfg(target_arch = "x86_64")]

mod common;

use common::calls::Caller;
use common::painted::Stack;
use common::reached::row_of;
use common::stores::{any, deep, prepared, small, way_down, with_directory};
use model::{Call, Memory};

/// The most bytes that each call uses; docs/PERFORMANCE.md has them too.
const STATED: [(&str, usize); 15] = [
    ("prepare", 72),
    ("create", 7_288),
    ("open", 7_224),
    ("close", 7_608),
    ("read", 7_160),
    ("write", 7_160),
    ("seek", 7_112),
    ("fstat", 7_112),
    ("link", 7_592),
    ("unlink", 7_288),
    ("move", 7_608),
    ("ls", 7_240),
    ("mkdir", 7_272),
    ("rmdir", 7_272),
    ("room", 7_144),
];

/// The most that each call was seen to use.
struct Measured {
    stack: Stack,
    most: [usize; 15],
}

impl Measured {
    /// Makes a call on the painted stack. It answers there what it answers
    /// elsewhere.
    fn call(&mut self, call: &Call, memory: &mut Memory, buffer: &mut [u8]) -> u32 {
        let mut twin = memory.clone();
        let expected = call.perform(&mut twin.lend(), &mut buffer.to_vec());
        let (answer, used) = self.stack.perform(call, &mut memory.lend(), buffer);
        assert_eq!(answer.report, u32::from(expected.report), "{call:?}");
        let most = &mut self.most[row_of(call)];
        *most = used.max(*most);
        answer.report
    }

    fn row(&mut self, mut memory: Memory, mut caller: Caller, count: usize) {
        for _ in 0..count {
            let (call, lent) = caller.call(&memory);
            let report = self.call(&call, &mut memory, &mut vec![0; lent]);
            caller.told(report);
        }
    }

    /// Every call on names of seven and eight syllables.
    fn deep_names(&mut self) {
        let names = way_down();
        let (directory, file) = (&names[6][..], &names[7][..]);
        let other = [directory, b"/b"].concat();
        let below = [&names[5][..], b"/b"].concat();
        for call in [
            Call::Open(file),
            Call::Create(file),
            Call::Create(&other),
            Call::Link(file, &other),
            Call::Move(file, &other),
            Call::Unlink(file),
            Call::Ls(directory),
            Call::Mkdir(&below),
            Call::Rmdir(directory),
            Call::Write(0, &[1; 5000]),
            Call::Read(0),
            Call::Close(0),
        ] {
            self.call(&call, &mut deep(), &mut [0; 600]);
        }
    }
}

#[test]
fn bytes_of_stack() {
    let mut measured = Measured {
        stack: Stack::new(),
        most: [0; 15],
    };
    measured.deep_names();
    measured.row(with_directory(2048), Caller::new(0).knows(b"/a"), 30);
    for seed in 0..200 {
        let mut caller = Caller::new(seed);
        let sizes = if seed % 10 == 0 { any } else { small }(&mut caller.random);
        let memory = prepared(&mut caller.random, sizes);
        measured.row(memory, caller, 100);
    }
    for ((name, _), most) in STATED.iter().zip(measured.most) {
        println!("{name:8}{most:>8} bytes of stack");
    }
    for ((name, stated), most) in STATED.iter().zip(measured.most) {
        assert!(
            most <= *stated,
            "{name} uses {most} bytes, {stated} are stated"
        );
    }
}
