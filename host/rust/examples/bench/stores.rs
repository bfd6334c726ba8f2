//! The stores that calls are timed on.

use model::{Memory, Tables};

/// 16 blocks, 16 files, 4 channels; 40 names in /, /d and /d/e.
pub fn middling() -> Memory {
    let mut memory = Memory::prepared(16, 16, 4);
    let mut tables = memory.lend();
    for directory in ["/d", "/d/e", "/z"] {
        tables.mkdir(directory.as_bytes()).expect("room");
    }
    for (way, files, links) in [("", 4, 15), ("/d", 3, 6), ("/d/e", 3, 6)] {
        fill(&mut tables, way, files, 300, links);
    }
    open_some(&mut tables, "/d/e/f0", 2);
    memory
}

/// 128 blocks, 64 files, 16 channels; directories to the deepest, 96 names.
pub fn largest() -> Memory {
    let mut memory = Memory::prepared(128, 64, 16);
    let mut tables = memory.lend();
    for depth in 1..=7 {
        tables.mkdir("/d".repeat(depth).as_bytes()).expect("room");
    }
    tables.mkdir(b"/z").expect("room");
    fill(&mut tables, "", 44, 1000, 0);
    fill(&mut tables, &"/d".repeat(7), 10, 1000, 34);
    open_some(&mut tables, &["/d".repeat(7).as_str(), "/f0"].concat(), 8);
    memory
}

/// The largest tables, with 2,048 names in /d, all of them of /a.
pub fn long_directory() -> Memory {
    let mut memory = Memory::prepared(128, 64, 16);
    let mut tables = memory.lend();
    tables.mkdir(b"/d").expect("room");
    tables.create(b"/a").expect("room");
    for n in 0..2048 {
        let name = format!("/d/n{n}");
        tables.link(b"/a", name.as_bytes()).expect("room");
    }
    memory
}

/// The largest tables, with one file of that length; channel 0 at its start.
pub fn one_file(length: usize) -> Memory {
    let mut memory = Memory::prepared(128, 64, 16);
    let mut tables = memory.lend();
    tables.create(b"/a").expect("room");
    tables.write(0, &vec![1; length]).expect("room");
    tables.seek(0, 0, 0).expect("a place");
    memory
}

/// Files f0, f1, .. of so many bytes in a directory, then links to f0.
fn fill(tables: &mut Tables, way: &str, files: usize, bytes: usize, links: usize) {
    for n in 0..files {
        let name = format!("{way}/f{n}");
        let channel = tables.create(name.as_bytes()).expect("room");
        tables.write(channel, &vec![7; bytes]).expect("room");
        tables.close(channel).expect("a channel");
    }
    let first = format!("{way}/f0");
    for n in 0..links {
        let name = format!("{way}/link{n}");
        tables
            .link(first.as_bytes(), name.as_bytes())
            .expect("room");
    }
}

fn open_some(tables: &mut Tables, name: &str, count: usize) {
    for _ in 0..count {
        tables.open(name.as_bytes()).expect("a channel");
    }
}
