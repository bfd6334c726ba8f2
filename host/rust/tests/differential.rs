//! The static library beside the model: answers, buffers, every table byte.
//!
//! FILESTORE_ROUNDS multiplies the work (1 where it is not set), FILESTORE_SEED
//! is the first seed (0). Where the two differ, the message has the seed.

mod common;

use std::env;

use common::calls::Caller;
use common::damage::damage;
use common::pair::Pair;
use common::reached::Reached;
use common::stores::{
    any, deep, prepared, small, way_down, with_directory, with_tight_directory, Sizes,
};
use model::random::Random;
use model::{Call, Memory};

fn number(variable: &str, default: u64) -> u64 {
    env::var(variable).map_or(default, |text| text.parse().expect("a number"))
}

/// The seeds of a test that by itself takes `count`; each test has its own.
fn seeds(test: u64, count: u64) -> impl Iterator<Item = u64> {
    let first = number("FILESTORE_SEED", 0) + test * 1_000_000_000;
    let count = count * number("FILESTORE_ROUNDS", 1);
    println!("seeds {first} to {}", first + count - 1);
    first..first + count
}

/// Makes a row of random calls.
fn calls(pair: &mut Pair, caller: &mut Caller, count: usize, reached: &mut Reached) {
    for _ in 0..count {
        let (call, lent) = caller.call(&pair.model);
        let report = pair.make(&call, lent, reached);
        caller.told(report);
    }
}

/// A row of calls on a prepared store; answers the store it left.
fn row(seed: u64, sizes: fn(&mut Random) -> Sizes, count: usize, reached: &mut Reached) -> Memory {
    let mut caller = Caller::new(seed);
    let sizes = sizes(&mut caller.random);
    let mut pair = Pair::new(seed, prepared(&mut caller.random, sizes));
    calls(&mut pair, &mut caller, count, reached);
    pair.model
}

/// A row of calls on a store whose /d is long. It begins with the four calls
/// that add a record.
fn long_directory(seed: u64, store: Memory, count: usize, reached: &mut Reached) {
    let mut pair = Pair::new(seed, store);
    let new = b"/d/new";
    for call in [
        Call::Create(new),
        Call::Mkdir(new),
        Call::Link(b"/a", new),
        Call::Move(b"/a", new),
    ] {
        pair.make(&call, 0, reached);
    }
    let mut caller = Caller::new(seed).knows(b"/a").knows(b"/d/n9").knows(b"/d");
    calls(&mut pair, &mut caller, count, reached);
}

/// A row of calls on a store as deep as can be.
fn deep_tree(seed: u64, count: usize, reached: &mut Reached) {
    let mut pair = Pair::new(seed, deep());
    let known = way_down().into_iter();
    let mut caller = known.fold(Caller::new(seed), |caller, name| caller.knows(&name));
    calls(&mut pair, &mut caller, count, reached);
}

/// Damages copies of a store, and makes two calls on each copy. Answers how
/// many copies the second call found sound.
fn damaged(seed: u64, memory: &Memory, copies: usize, reached: &mut Reached) -> usize {
    let mut caller = Caller::new(!seed);
    let mut sound = 0;
    for _ in 0..copies {
        let mut memory = memory.clone();
        for _ in 0..=caller.random.below(3) {
            damage(&mut caller.random, &mut memory);
        }
        let mut pair = Pair::new(seed, memory);
        calls(&mut pair, &mut caller, 1, reached);
        let (call, lent) = caller.call(&pair.model);
        sound += usize::from(pair.make(&call, lent, reached) != 1);
    }
    sound
}

/// Tables for so many records, each in turn a byte short and a byte long.
fn lengths(caller: &mut Caller, seed: u64, sizes: Sizes, reached: &mut Reached) {
    let (blocks, files, channels) = sizes;
    for (table, by) in [
        (0, 0),
        (0, -1),
        (0, 1),
        (1, -1),
        (1, 1),
        (2, -1),
        (2, 1),
        (3, -1),
        (3, 1),
    ] {
        let mut memory = Memory::new(blocks, files, channels);
        let changed = match table {
            0 => &mut memory.blocks,
            1 => &mut memory.block_records,
            2 => &mut memory.file_records,
            _ => &mut memory.channel_records,
        };
        changed.resize(changed.len().saturating_add_signed(by), 0);
        let mut pair = Pair::new(seed, memory);
        pair.make(&Call::Prepare, 0, reached);
        calls(&mut pair, caller, if by == 0 { 30 } else { 4 }, reached);
    }
}

fn print(reached: &Reached, of: &str) {
    let (calls, accepted) = (reached.calls(), reached.accepted());
    println!("{calls} calls on {of}, {accepted} of them accepted");
}

#[test]
fn rows_of_calls_on_small_stores() {
    let mut reached = Reached::default();
    for seed in seeds(1, 30_000) {
        row(seed, small, 100, &mut reached);
    }
    print(&reached, "small stores");
}

#[test]
fn rows_of_calls_on_stores_of_any_size() {
    let mut reached = Reached::default();
    for seed in seeds(2, 2_000) {
        row(seed, any, 150, &mut reached);
    }
    print(&reached, "stores of any size");
}

#[test]
fn rows_of_calls_on_long_directories() {
    let mut reached = Reached::default();
    for seed in seeds(3, 2) {
        long_directory(seed, with_directory(2048), 60, &mut reached);
        long_directory(seed, with_directory(2047), 60, &mut reached);
        long_directory(seed, with_tight_directory(64), 60, &mut reached);
    }
    print(&reached, "stores with a long directory");
}

#[test]
fn rows_of_calls_on_deep_trees() {
    let mut reached = Reached::default();
    for seed in seeds(7, 2_000) {
        deep_tree(seed, 60, &mut reached);
    }
    print(&reached, "deep trees");
}

#[test]
fn damaged_tables() {
    let mut reached = Reached::default();
    let (mut sound, mut tables) = (0, 0);
    for seed in seeds(4, 7_500) {
        let memory = row(seed, small, 30, &mut reached);
        sound += damaged(seed, &memory, 40, &mut reached);
        tables += 40;
    }
    print(&reached, "small stores and their damaged copies");
    println!("{tables} damaged copies, {sound} of them sound all the same");
    assert!(sound > tables / 10 && sound < tables / 2);
}

#[test]
fn damaged_directories() {
    let mut reached = Reached::default();
    let (mut sound, mut tables) = (0, 0);
    for seed in seeds(8, 400) {
        let records = 1 + Random::new(seed).below(130);
        let memory = with_tight_directory(records);
        sound += damaged(seed, &memory, 40, &mut reached);
        tables += 40;
    }
    print(&reached, "damaged copies of directories of many blocks");
    println!("{tables} damaged copies, {sound} of them sound all the same");
    assert!(sound > tables / 10 && sound < tables / 2);
}

#[test]
fn tables_of_all_lengths() {
    let mut reached = Reached::default();
    for seed in seeds(5, 1) {
        let mut caller = Caller::new(seed);
        let mut lengths = |sizes| lengths(&mut caller, seed, sizes, &mut reached);
        (0..=130).for_each(|blocks| lengths((blocks, 3, 2)));
        (0..=66).for_each(|files| lengths((3, files, 2)));
        (0..=18).for_each(|channels| lengths((3, 3, channels)));
    }
    print(&reached, "tables of all lengths");
}

#[test]
fn every_report_of_every_call() {
    let mut reached = Reached::default();
    for seed in seeds(6, 1) {
        (seed..seed + 400).for_each(|seed| _ = row(seed, small, 100, &mut reached));
        let directory = with_tight_directory(100);
        (seed..seed + 50).for_each(|seed| _ = damaged(seed, &directory, 20, &mut reached));
        lengths(&mut Caller::new(seed), seed, (0, 3, 2), &mut reached);
        long_directory(seed, with_tight_directory(64), 60, &mut reached);
        long_directory(seed, with_directory(2048), 0, &mut reached);
    }
    print(&reached, "stores of every kind; calls down, reports across");
    println!("{reached}");
    reached.assert_all();
}
