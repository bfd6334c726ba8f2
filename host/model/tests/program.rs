//! The proved text program against the model, line for line.
//!
//! The program is `crates/filestore_text/out/filestore_text` of the
//! repository, which `./filestore` builds.

use std::fs::File;
use std::io::{Read, Seek, Write};
use std::os::fd::OwnedFd;
use std::os::unix::net::{UnixDatagram, UnixStream};
use std::path::PathBuf;
use std::process::{Child, Command, Stdio};
use std::thread;

use model::random::Random;
use model::sessions::Session;
use model::text::serve;

/// The most that the program reads at once.
const PIECE: usize = 4_096;

fn start(input: Stdio, output: Stdio) -> Child {
    let program = PathBuf::from(env!("CARGO_MANIFEST_DIR"))
        .join("../../crates/filestore_text/out/filestore_text");
    assert!(
        program.exists(),
        "no program: run `./filestore </dev/null` first"
    );
    Command::new(program)
        .stdin(input)
        .stdout(output)
        .stderr(Stdio::piped())
        .spawn()
        .expect("the program starts")
}

/// What the program prints, once it has ended well and said nothing else.
fn printed(child: Child) -> Vec<u8> {
    let ended = child.wait_with_output().expect("the program ends");
    assert!(ended.status.success(), "{}", ended.status);
    assert!(ended.stderr.is_empty());
    ended.stdout
}

/// What the program prints for an input that arrives in pieces, each of `PIECE` bytes at most and
/// read by itself: a datagram is read whole, and an empty one is the end of the input.
fn in_pieces(input: &[u8], mut size: impl FnMut() -> usize) -> Vec<u8> {
    let (ours, theirs) = UnixDatagram::pair().expect("a pair of sockets");
    let child = start(OwnedFd::from(theirs).into(), Stdio::piped());
    let printed = thread::spawn(move || printed(child));
    let mut rest = input;
    while !rest.is_empty() {
        let (piece, after) = rest.split_at(size().min(rest.len()));
        ours.send(piece).expect("a piece is sent");
        rest = after;
    }
    ours.send(&[]).expect("the end is sent");
    printed.join().expect("the program's output")
}

/// Says where two outputs part, with the line of the input.
fn assert_same(input: &[u8], program: &[u8]) {
    let model = serve(input);
    let lines =
        |bytes: &[u8]| -> Vec<Vec<u8>> { bytes.split(|&b| b == b'\n').map(Vec::from).collect() };
    if program != model {
        let (input, program, model) = (lines(input), lines(program), lines(&model));
        let at = (0..)
            .find(|&i| program.get(i) != model.get(i))
            .expect("a difference");
        panic!(
            "line {at}, {:?}: the program prints {:?}, the model {:?}",
            input
                .get(at)
                .map(|l| String::from_utf8_lossy(l).into_owned()),
            program
                .get(at)
                .map(|l| String::from_utf8_lossy(l).into_owned()),
            model
                .get(at)
                .map(|l| String::from_utf8_lossy(l).into_owned()),
        );
    }
}

/// The lines of random sessions, `prepare` before each.
fn sessions(seeds: std::ops::Range<u64>, count: usize) -> Vec<Vec<u8>> {
    let mut lines = Vec::new();
    for seed in seeds {
        lines.push(b"prepare".to_vec());
        let session = Session::new(seed, count);
        lines.extend(session.lines.into_iter().map(|l| l.line.into_bytes()));
    }
    lines
}

/// Some lines changed by a byte or two: one more, one less, another; now and then one of about 1,024 bytes or far more.
fn spoilt(mut lines: Vec<Vec<u8>>, random: &mut Random) -> Vec<u8> {
    const BYTES: &[u8] = b"  /0129azAZ+-\t\r\n\0\x80\xff";
    for line in &mut lines {
        while random.chance(30) {
            let at = random.below(line.len() + 1);
            match random.below(4) {
                0 | 1 => line.insert(at, random.pick(BYTES)),
                2 if at < line.len() => drop(line.remove(at)),
                _ if at < line.len() => line[at] = random.number() as u8,
                _ => {}
            }
        }
        if random.chance(2) {
            let size = random.pick(&[1023, 1024, 1025, 1026, 2049, 70_000]);
            line.resize(size.max(line.len()), random.pick(BYTES));
        }
    }
    lines.join(&b'\n')
}

#[test]
fn sessions_are_served_as_the_model_serves_them() {
    let input = sessions(0..2_000, 50).join(&b'\n');
    assert_same(&input, &in_pieces(&input, || PIECE));
}

#[test]
fn spoilt_lines_are_served_as_the_model_serves_them() {
    let mut random = Random::new(7);
    for round in 0..20 {
        let input = spoilt(sessions(round * 100..round * 100 + 100, 50), &mut random);
        assert_same(&input, &in_pieces(&input, || PIECE));
    }
}

#[test]
fn pieces_do_not_matter() {
    let mut random = Random::new(8);
    let input = spoilt(sessions(5_000..5_100, 30), &mut random);
    assert_same(&input, &in_pieces(&input, || 1));
    for most in [2, 30, 1_000, PIECE] {
        assert_same(&input, &in_pieces(&input, || 1 + random.below(most)));
    }
}

#[test]
fn a_last_line_needs_no_newline() {
    for input in [
        "",
        "\n",
        "room",
        "room\n",
        "room\n\nroom",
        "create /x\nls /",
    ] {
        assert_same(input.as_bytes(), &in_pieces(input.as_bytes(), || PIECE));
        assert_same(input.as_bytes(), &in_pieces(input.as_bytes(), || 1));
    }
}

/// Output far longer than the input: the output is written in several parts within one piece.
#[test]
fn much_output_of_a_short_input() {
    let mut input = b"create /x\n".to_vec();
    for i in 0..120 {
        input.extend(format!("link /x /name{i}\n").bytes());
    }
    input.extend(b"ls /\n".repeat(2_000));
    assert_same(&input, &in_pieces(&input, || PIECE));
    assert_same(&input, &in_pieces(&input, || 4_000));
}

/// A read that fails ends the program, and the line that it cuts is not served.
/// The peer of a socket that closes with bytes unread makes the next read fail once all bytes have been read.
#[test]
fn a_failed_read_serves_no_cut_line() {
    let (mut ours, mut theirs) = UnixStream::pair().expect("a pair of sockets");
    theirs.write_all(b"unread").expect("bytes are written");
    ours.write_all(b"room\nroo").expect("bytes are written");
    drop(ours);
    let child = start(OwnedFd::from(theirs).into(), Stdio::piped());
    assert_eq!(printed(child), b"0 4 3 2\n");
}

/// A write that fails ends the program: it reads no second piece.
#[test]
fn a_failed_write_ends_the_program() {
    let path = std::env::temp_dir().join(format!("filestore_text_{}", std::process::id()));
    std::fs::write(&path, b"room\n".repeat(100_000)).expect("a file is written");
    let mut input = File::open(&path).expect("the file opens");
    std::fs::remove_file(&path).expect("the file goes");
    let full = File::create("/dev/full").expect("/dev/full opens");
    let child = start(
        input.try_clone().expect("a second handle").into(),
        full.into(),
    );
    assert!(printed(child).is_empty());
    assert!(input.stream_position().expect("a position") <= PIECE as u64);
    assert!(input.read(&mut [0]).expect("a byte") == 1);
}
