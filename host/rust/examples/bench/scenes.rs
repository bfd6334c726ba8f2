//! Each call on a store that accepts it.

use model::{Call, Memory};

use crate::stores;

/// A call and what it is timed on.
pub struct Scene {
    pub name: &'static str,
    pub memory: Memory,
    pub call: Call<'static>,
    pub lent: usize,
}

/// All calls on the middling store.
pub fn middling() -> Vec<Scene> {
    same(stores::middling(), MIDDLING)
}

/// All calls on the largest store, by names of seven and eight syllables.
pub fn largest() -> Vec<Scene> {
    same(stores::largest(), LARGEST)
}

fn scene(name: &'static str, memory: Memory, call: Call<'static>, lent: usize) -> Scene {
    Scene {
        name,
        memory,
        call,
        lent,
    }
}

/// 2 blocks, 2 files, 1 channel: the least that every call can be accepted in.
pub fn smallest() -> Vec<Scene> {
    let empty = || Memory::prepared(2, 2, 1);
    let open = || {
        let mut memory = empty();
        let mut tables = memory.lend();
        tables.create(b"/x").expect("room");
        tables.write(0, &[1; 512]).expect("room");
        tables.seek(0, 0, 0).expect("a place");
        memory
    };
    let closed = || {
        let mut memory = open();
        memory.lend().close(0).expect("a channel");
        memory
    };
    let directory = || {
        let mut memory = empty();
        memory.lend().mkdir(b"/d").expect("room");
        memory
    };
    vec![
        scene("prepare", empty(), Call::Prepare, 0),
        scene("create", empty(), Call::Create(b"/x"), 0),
        scene("open", closed(), Call::Open(b"/x"), 0),
        scene("close", open(), Call::Close(0), 0),
        scene("read", open(), Call::Read(0), 512),
        scene("write", open(), Call::Write(0, &[2; 512]), 0),
        scene("seek", open(), Call::Seek(0, 0, 8), 0),
        scene("fstat", open(), Call::Fstat(0), 0),
        scene("link", closed(), Call::Link(b"/x", b"/y"), 0),
        scene("unlink", closed(), Call::Unlink(b"/x"), 0),
        scene("move", closed(), Call::Move(b"/x", b"/y"), 0),
        scene("ls", closed(), Call::Ls(b"/"), 14),
        scene("mkdir", empty(), Call::Mkdir(b"/d"), 0),
        scene("rmdir", directory(), Call::Rmdir(b"/d"), 0),
        scene("room", closed(), Call::Room, 0),
    ]
}

/// Names that the calls take.
struct Names {
    /// The directory that is listed.
    directory: &'static [u8],
    /// A file with one name.
    file: &'static [u8],
    /// A name to make, and one for a directory.
    new: &'static [u8],
    new_directory: &'static [u8],
}

const MIDDLING: Names = Names {
    directory: b"/d",
    file: b"/d/e/f1",
    new: b"/d/e/new",
    new_directory: b"/d/e/new",
};
const LARGEST: Names = Names {
    directory: b"/d/d/d/d/d/d/d",
    file: b"/d/d/d/d/d/d/d/f1",
    new: b"/d/d/d/d/d/d/d/new",
    new_directory: b"/d/d/d/d/d/d/new",
};

/// All calls on one store.
fn same(memory: Memory, names: Names) -> Vec<Scene> {
    let Names {
        directory,
        file,
        new,
        new_directory,
    } = names;
    [
        ("prepare", Call::Prepare, 0),
        ("create", Call::Create(new), 0),
        ("open", Call::Open(file), 0),
        ("close", Call::Close(0), 0),
        ("read", Call::Read(0), 512),
        ("write", Call::Write(0, &[2; 512]), 0),
        ("seek", Call::Seek(0, 0, 8), 0),
        ("fstat", Call::Fstat(0), 0),
        ("link", Call::Link(file, new), 0),
        ("unlink", Call::Unlink(file), 0),
        ("move", Call::Move(file, new), 0),
        ("ls", Call::Ls(directory), 2048),
        ("mkdir", Call::Mkdir(new_directory), 0),
        ("rmdir", Call::Rmdir(b"/z"), 0),
        ("room", Call::Room, 0),
    ]
    .map(|(name, call, lent)| scene(name, memory.clone(), call, lent))
    .into()
}
