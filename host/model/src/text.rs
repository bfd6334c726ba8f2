//! The text program: calls as lines, answers as lines.

use std::io::Write;

use crate::call::Call;
use crate::memory::Memory;

/// The longest line that is served.
const MAX_LINE: usize = 1024;
/// The bytes lent to read and ls.
const BUFFER: usize = 2048;

/// What the program prints for all of its input.
pub fn serve(input: &[u8]) -> Vec<u8> {
    let mut program = Program::new();
    let mut out = Vec::new();
    for line in lines(input) {
        program.serve_line(line, &mut out);
    }
    out
}

/// The lines of a text; a last one may lack its newline.
fn lines(input: &[u8]) -> impl Iterator<Item = &[u8]> {
    input
        .split_inclusive(|&b| b == b'\n')
        .map(|line| line.strip_suffix(b"\n").unwrap_or(line))
}

/// The program's store: 4 blocks, 4 files, 2 channels.
#[derive(Clone)]
pub struct Program {
    memory: Memory,
}

impl Default for Program {
    fn default() -> Program {
        Program::new()
    }
}

impl Program {
    pub fn new() -> Program {
        Program {
            memory: Memory::prepared(4, 4, 2),
        }
    }

    /// Serves one line, without its newline, and prints one.
    pub fn serve_line(&mut self, line: &[u8], out: &mut Vec<u8>) {
        match Request::parse(line) {
            None => out.push(b'?'),
            Some(Request { call, lent }) => {
                let mut buffer = [0; BUFFER];
                let answer = call.perform(&mut self.memory.lend(), &mut buffer[..lent]);
                print(out, format_args!("{}", answer.report));
                if answer.is_ok() {
                    for value in answer.values() {
                        print(out, format_args!(" {value}"));
                    }
                    print_hex(out, &buffer[..call.filled(&answer)]);
                }
            }
        }
        out.push(b'\n');
    }
}

/// A call as a line gives it, and the bytes that are lent to it.
struct Request<'l> {
    call: Call<'l>,
    lent: usize,
}

impl<'l> Request<'l> {
    /// The call of a line, or none where it has another form.
    fn parse(line: &'l [u8]) -> Option<Request<'l>> {
        if line.len() > MAX_LINE {
            return None;
        }
        let mut words = Words { rest: Some(line) };
        let mut lent = BUFFER;
        let call = match words.word()? {
            b"prepare" => Call::Prepare,
            b"create" => Call::Create(words.word()?),
            b"open" => Call::Open(words.word()?),
            b"close" => Call::Close(words.number()?),
            b"read" => {
                let cid = words.number()?;
                lent = words.number()? as usize;
                Call::Read(cid)
            }
            b"write" => Call::Write(words.number()?, words.data()?),
            b"seek" => Call::Seek(words.number()?, words.number()?, words.number()?),
            b"fstat" => Call::Fstat(words.number()?),
            b"link" => Call::Link(words.word()?, words.word()?),
            b"unlink" => Call::Unlink(words.word()?),
            b"move" => Call::Move(words.word()?, words.word()?),
            b"ls" => Call::Ls(words.word()?),
            b"mkdir" => Call::Mkdir(words.word()?),
            b"rmdir" => Call::Rmdir(words.word()?),
            b"room" => Call::Room,
            _ => return None,
        };
        let whole = words.rest.is_none() && lent <= BUFFER;
        whole.then_some(Request { call, lent })
    }
}

/// The words of a line that are left; none after the last.
struct Words<'l> {
    rest: Option<&'l [u8]>,
}

impl<'l> Words<'l> {
    /// The next word, which is not empty.
    fn word(&mut self) -> Option<&'l [u8]> {
        let rest = self.rest?;
        let (word, after) = match rest.iter().position(|&b| b == b' ') {
            Some(end) => (&rest[..end], Some(&rest[end + 1..])),
            None => (rest, None),
        };
        self.rest = after;
        (!word.is_empty()).then_some(word)
    }

    /// The next word as a decimal number below 2^32.
    fn number(&mut self) -> Option<u32> {
        self.word()?.iter().try_fold(0u32, |value, &digit| {
            let digit = digit.is_ascii_digit().then(|| u32::from(digit - b'0'))?;
            value.checked_mul(10)?.checked_add(digit)
        })
    }

    /// The rest of the line, spaces included; it may be missing but not empty.
    fn data(&mut self) -> Option<&'l [u8]> {
        match self.rest.take() {
            None => Some(&[]),
            Some([]) => None,
            Some(data) => Some(data),
        }
    }
}

fn print(out: &mut Vec<u8>, text: std::fmt::Arguments) {
    out.write_fmt(text).expect("a Vec takes every byte");
}

/// A space and the bytes in hex; nothing for no bytes.
fn print_hex(out: &mut Vec<u8>, bytes: &[u8]) {
    const DIGITS: &[u8; 16] = b"0123456789abcdef";
    if bytes.is_empty() {
        return;
    }
    out.push(b' ');
    for &byte in bytes {
        out.push(DIGITS[usize::from(byte >> 4)]);
        out.push(DIGITS[usize::from(byte & 15)]);
    }
}
