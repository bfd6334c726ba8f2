//! Calls made on a painted stack.

use std::arch::asm;

use filestore::sys::{self, Answer};
use model::{Call, Tables};

const PAINT: u8 = 0x5a;
/// Bytes of the painted stack.
const SIZE: usize = 128 * 1024;
/// The most words of parameters: four tables and two slices.
const MOST: usize = 12;
/// How many of them go by registers.
const REGISTERS: usize = 6;

/// A stack that the library's functions run on, painted all over.
pub struct Stack {
    bytes: Vec<u8>,
}

impl Stack {
    pub fn new() -> Stack {
        Stack {
            bytes: vec![PAINT; SIZE],
        }
    }

    /// Makes a call on this stack; the answer, and how many bytes it used: the
    /// return address counts, the parameters that the caller puts there do not.
    pub fn perform(
        &mut self,
        call: &Call,
        tables: &mut Tables,
        buffer: &mut [u8],
    ) -> (Answer, usize) {
        let (function, words) = parameters(call, tables, buffer);
        let start = self.bytes.as_mut_ptr();
        // 16-byte alignment, as the ABI asks of the place of the parameters
        let spare = (start as usize + SIZE) % 16;
        let base = SIZE - spare - 8 * (MOST - REGISTERS);
        for (slot, word) in self.bytes[base..]
            .chunks_exact_mut(8)
            .zip(&words[REGISTERS..])
        {
            slot.copy_from_slice(&word.to_ne_bytes());
        }
        // SAFETY: the parameters are those of the function, by the C ABI, and
        // the stack is deep enough for it.
        let answer = unsafe { call_on(start.add(base), function, &words) };
        let lowest = self.lowest_changed();
        assert!(lowest > 0, "the painted stack is too small");
        self.bytes[lowest..].fill(PAINT);
        (answer, base - lowest)
    }

    /// The lowest byte without paint; there is one, as a call pushes its
    /// return address.
    fn lowest_changed(&self) -> usize {
        let (chunks, _) = self.bytes.as_chunks::<64>();
        let painted = chunks.iter().take_while(|&&c| c == [PAINT; 64]).count();
        let changed = self.bytes[64 * painted..].iter().position(|&b| b != PAINT);
        64 * painted + changed.expect("a call changes its stack")
    }
}

/// Calls a function of up to twelve words; those after the sixth lie at `stack`.
unsafe fn call_on(stack: *mut u8, function: *const (), words: &[u64; MOST]) -> Answer {
    let (low, high): (u64, u64);
    asm!(
        "mov r12, rsp",
        "mov rsp, r13",
        "call r14",
        "mov rsp, r12",
        out("r12") _,
        in("r13") stack,
        in("r14") function,
        in("rdi") words[0],
        in("rsi") words[1],
        inlateout("rdx") words[2] => high,
        in("rcx") words[3],
        in("r8") words[4],
        in("r9") words[5],
        lateout("rax") low,
        clobber_abi("C"),
    );
    Answer {
        report: low as u32,
        first: (low >> 32) as u32,
        second: high as u32,
        third: (high >> 32) as u32,
    }
}

/// Words of parameters, put one after the other.
#[derive(Default)]
struct Words {
    words: [u64; MOST],
    count: usize,
}

impl Words {
    fn number(mut self, number: u64) -> Words {
        self.words[self.count] = number;
        self.count += 1;
        self
    }

    fn slice(self, bytes: &[u8]) -> Words {
        self.number(bytes.as_ptr() as u64)
            .number(bytes.len() as u64)
    }
}

/// The function of a call, and the words that it takes.
fn parameters(call: &Call, t: &mut Tables, buffer: &mut [u8]) -> (*const (), [u64; MOST]) {
    let tables = Words::default()
        .slice(t.blocks)
        .slice(t.block_records)
        .slice(t.file_records)
        .slice(t.channel_records);
    let own = match *call {
        Call::Prepare | Call::Room => tables,
        Call::Create(name)
        | Call::Open(name)
        | Call::Unlink(name)
        | Call::Mkdir(name)
        | Call::Rmdir(name) => tables.slice(name),
        Call::Close(cid) | Call::Fstat(cid) => tables.number(cid.into()),
        Call::Read(cid) => tables.number(cid.into()).slice(buffer),
        Call::Write(cid, data) => tables.number(cid.into()).slice(data),
        Call::Seek(cid, mode, n) => tables
            .number(cid.into())
            .number(mode.into())
            .number(n.into()),
        Call::Link(old, new) | Call::Move(old, new) => tables.slice(old).slice(new),
        Call::Ls(name) => tables.slice(name).slice(buffer),
    };
    (function(call), own.words)
}

fn function(call: &Call) -> *const () {
    match call {
        Call::Prepare => sys::filestore_prepare as *const (),
        Call::Create(_) => sys::filestore_create as *const (),
        Call::Open(_) => sys::filestore_open as *const (),
        Call::Close(_) => sys::filestore_close as *const (),
        Call::Read(_) => sys::filestore_read as *const (),
        Call::Write(..) => sys::filestore_write as *const (),
        Call::Seek(..) => sys::filestore_seek as *const (),
        Call::Fstat(_) => sys::filestore_fstat as *const (),
        Call::Link(..) => sys::filestore_link as *const (),
        Call::Unlink(_) => sys::filestore_unlink as *const (),
        Call::Move(..) => sys::filestore_move as *const (),
        Call::Ls(_) => sys::filestore_ls as *const (),
        Call::Mkdir(_) => sys::filestore_mkdir as *const (),
        Call::Rmdir(_) => sys::filestore_rmdir as *const (),
        Call::Room => sys::filestore_room as *const (),
    }
}
