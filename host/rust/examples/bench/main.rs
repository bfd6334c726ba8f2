//! Times every call of the library beside the model, in one run.
//!
//! Prints the tables of docs/PERFORMANCE.md:
//!
//!     cargo run --offline --release --example bench

#[path = "../../tests/common/library.rs"]
mod library;

mod clock;
mod pass;
mod scenes;
mod stores;

use std::hint::black_box;

use clock::{nanoseconds, Times};
use model::{Call, Memory};

fn main() {
    calls();
    soundness();
    whole_blocks();
    long_names();
}

/// Every call at three sizes; times of the library and of the model.
fn calls() {
    println!(
        "| Call | smallest | model | ratio | middling | model | ratio | largest | model | ratio |"
    );
    println!("|---|--:|--:|--:|--:|--:|--:|--:|--:|--:|");
    let [smallest, middling, largest] = [scenes::smallest(), scenes::middling(), scenes::largest()];
    for ((small, middle), large) in smallest.iter().zip(&middling).zip(&largest) {
        print!("| {} |", small.name);
        for scene in [small, middle, large] {
            print!(" {} |", Times::of(&scene.memory, &scene.call, scene.lent));
        }
        println!();
    }
}

/// The soundness test, which is most of room, beside one pass over the bytes
/// that it must read.
fn soundness() {
    println!("\n| Store | Bytes to read | room | model | ratio | one pass |");
    println!("|---|--:|--:|--:|--:|--:|");
    for (store, memory) in [
        (
            "empty: 1 block, 1 file, 1 channel",
            Memory::prepared(1, 1, 1),
        ),
        (
            "empty: 128 blocks, 64 files, 16 channels",
            Memory::prepared(128, 64, 16),
        ),
        ("middling, 40 names", stores::middling()),
        ("largest, 96 names", stores::largest()),
        ("a directory of 2,048 names", stores::long_directory()),
    ] {
        let times = Times::of(&memory, &Call::Room, 0);
        let bytes = pass::bytes_to_read(&memory);
        let pass = nanoseconds(|| pass::pass(&memory));
        println!("| {store} | {bytes} | {times} | {pass:.0} |");
    }
}

/// Read and write of whole blocks beside memcpy of as many bytes.
fn whole_blocks() {
    println!("\n| Call | bytes | library | model | ratio | room alone | memcpy |");
    println!("|---|--:|--:|--:|--:|--:|--:|");
    let data = vec![1; 32_768];
    for (name, grows) in [("read", false), ("write over", false), ("write anew", true)] {
        let memory = stores::one_file(if grows { 0 } else { 32_768 });
        let room = Times::of(&memory, &Call::Room, 0);
        for count in [512, 4_096, 32_768] {
            let times = match name {
                "read" => Times::of(&memory, &Call::Read(0), count),
                _ => Times::of(&memory, &Call::Write(0, &data[..count]), 0),
            };
            let mut to = vec![0; count];
            let copy =
                nanoseconds(|| black_box(&mut to).copy_from_slice(black_box(&data[..count])));
            println!(
                "| {name} | {count} | {times} | {:.0} | {copy:.0} |",
                room.library
            );
        }
    }
}

/// Names that are no names, since they are too long.
fn long_names() {
    println!("\n| Bytes of a name | open |");
    println!("|--:|--:|");
    for count in [121, 10_000_000] {
        let mut name = vec![b'a'; count];
        name[0] = b'/';
        let mut memory = Memory::prepared(2, 2, 1);
        let open = Call::Open(&name);
        let time = nanoseconds(|| {
            black_box(library::perform(&open, &mut memory.lend(), &mut []));
        });
        println!("| {count} | {time:.0} |");
    }
}
