//! `Store` says what the library answers, and names reports as the header does.

mod common;

use common::calls::Caller;
use common::library;
use common::stores::{prepared, small};
use filestore::sys::Answer;
use filestore::{ChannelNo, Kind, Report, Store};
use model::{Call, Memory};

/// Makes a call by its method; its numbers, or the report's.
fn by_method(call: &Call, memory: &mut Memory, buffer: &mut [u8]) -> Answer {
    let mut store = Store {
        blocks: &mut memory.blocks,
        block_records: &mut memory.block_records,
        file_records: &mut memory.file_records,
        channel_records: &mut memory.channel_records,
    };
    let none = |()| [0, 0, 0];
    let one = |number| [number, 0, 0];
    let count = |count: usize| [count as u32, 0, 0];
    let kind = |kind| match kind {
        Kind::Ordinary => 1,
        Kind::Directory => 2,
    };
    let result = match *call {
        Call::Prepare => store.prepare().map(none),
        Call::Create(name) => store.create(name).map(|c| one(c.0)),
        Call::Open(name) => store.open(name).map(|c| one(c.0)),
        Call::Close(cid) => store.close(ChannelNo(cid)).map(none),
        Call::Read(cid) => store.read(ChannelNo(cid), buffer).map(count),
        Call::Write(cid, data) => store.write(ChannelNo(cid), data).map(count),
        Call::Seek(cid, mode, n) => store.seek(ChannelNo(cid), mode, n).map(one),
        Call::Fstat(cid) => store
            .fstat(ChannelNo(cid))
            .map(|s| [s.length, s.file.0, kind(s.kind)]),
        Call::Link(old, new) => store.link(old, new).map(none),
        Call::Unlink(name) => store.unlink(name).map(none),
        Call::Move(old, new) => store.r#move(old, new).map(none),
        Call::Ls(name) => store.ls(name, buffer).map(count),
        Call::Mkdir(name) => store.mkdir(name).map(none),
        Call::Rmdir(name) => store.rmdir(name).map(none),
        Call::Room => store.room().map(|r| [r.blocks, r.files, r.channels]),
    };
    let (report, [first, second, third]) = match result {
        Ok(numbers) => (0, numbers),
        Err(report) => (report.number(), [0; 3]),
    };
    Answer {
        report,
        first,
        second,
        third,
    }
}

#[test]
fn methods_answer_what_the_library_answers() {
    for seed in 0..200 {
        let mut caller = Caller::new(seed);
        let sizes = small(&mut caller.random);
        let mut memory = prepared(&mut caller.random, sizes);
        for _ in 0..100 {
            let mut twin = memory.clone();
            let (call, lent) = caller.call(&memory);
            let (mut buffer, mut other) = (vec![7; lent], vec![7; lent]);
            let answer = by_method(&call, &mut memory, &mut buffer);
            let raw = library::perform(&call, &mut twin.lend(), &mut other);
            assert_eq!(answer, raw, "seed {seed}: {call:?}");
            assert!(memory == twin && buffer == other, "seed {seed}: {call:?}");
            caller.told(answer.report);
        }
    }
}

/// The header's constants and words, in order, are those of `Report`.
#[test]
fn reports_are_the_headers() {
    let header = include_str!("../../include/filestore.h");
    let part = |from: &str, to: &str| {
        let (_, rest) = header.split_once(from).expect("in the header");
        rest.split_once(to).expect("in the header").0
    };
    let numbers: Vec<_> = part("enum filestore_report {", "};")
        .lines()
        .filter_map(|line| line.split_once(" = "))
        .collect();
    let words: Vec<_> = part("words[] = {", "};")
        .split('"')
        .skip(1)
        .step_by(2)
        .collect();
    assert_eq!((numbers.len(), words.len()), (16, 16));
    assert!(numbers[0].0.trim() == "FILESTORE_OK" && numbers[0].1.starts_with("0,"));
    assert_eq!(words[0], "done");
    for number in 1..16 {
        let report = Report::of(number as u32).expect("a report");
        let (name, after) = numbers[number];
        let digits = after.split(|c: char| !c.is_ascii_digit()).next();
        assert_eq!(digits, Some(number.to_string().as_str()));
        let name = name.trim().trim_start_matches("FILESTORE").replace('_', "");
        assert_eq!(name.to_lowercase(), format!("{report:?}").to_lowercase());
        assert_eq!(words[number], report.to_string());
    }
}
