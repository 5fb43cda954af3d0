//! The program `editrun` beside the oracle's sets: what it prints of a file, however its input is cut, and how it ends.

use beside::program::{cut_for, program, said, BLOCK};
use oracle::edits::{editrun, file, Parents, MOST, NONE};
use oracle::random::Random;
use std::fs::{self, File};
use std::io::Write;
use std::os::fd::OwnedFd;
use std::os::unix::net::UnixStream;
use std::path::Path;
use std::process::{Command, Output, Stdio};

const UNREADABLE: &str = "editrun: standard input can't be read\n";
const UNWRITABLE: &str = "editrun: standard output can't be written\n";
const MALFORMED: &str = "editrun: two edits are wanted, each a number from 0 to 4294967295\n";

fn asked(first: u32, second: u32) -> Command {
    let mut program = program("editrun");
    program.args([first.to_string(), second.to_string()]);
    program
}

/// How it ends on an input that comes through a pipe in pieces of that size.
fn piped(mut program: Command, input: &[u8], size: usize) -> Output {
    let mut child = program.stdin(Stdio::piped()).spawn().expect("it starts");
    let mut stdin = child.stdin.take().expect("a pipe");
    for piece in input.chunks(size) {
        stdin.write_all(piece).expect("it reads on");
    }
    drop(stdin);
    child.wait_with_output().expect("it ends")
}

/// What the oracle wants on standard output and on standard error.
fn wanted(input: &[u8], first: u32, second: u32) -> (String, String) {
    match editrun(input, first, second) {
        Ok(text) => (text, String::new()),
        Err(errors) => (String::new(), errors),
    }
}

/// The oracle's lines or refusal, in pieces of several sizes through a pipe, and read by read.
fn same(input: &[u8], [first, second]: [u32; 2], sizes: &[usize]) {
    let (text, errors) = wanted(input, first, second);
    for &size in sizes {
        for output in
            [piped(asked(first, second), input, size), cut_for(asked(first, second), input, size.min(BLOCK - 15))]
        {
            assert_eq!(said(output, &errors), text, "{first} {second}, {} bytes, {size} at a time", input.len());
        }
    }
}

fn random_file(edits: u32, random: &mut Random) -> Vec<u8> {
    let mut parent = |edit: u32| if edit == 0 || random.percent(30) { NONE } else { random.below(edit as u64) as u32 };
    file(&(0..edits).map(|edit| [parent(edit), parent(edit)]).collect::<Vec<Parents>>())
}

#[test]
fn the_sample() {
    let path = Path::new(env!("CARGO_MANIFEST_DIR")).join("../../crates/editrun/stdin");
    let sample = fs::read(path).expect("the sample is there");
    same(&sample, [6, 3], &[1, 7, 16, 17, 4_096]);
    assert_eq!(editrun(&sample, 6, 3), Ok("4\n5\n6\n".into()));
}

#[test]
fn random_files() {
    let mut random = Random::new(1);
    for edits in [1, 2, 15, 256, 257, 511, 512] {
        let file = random_file(edits, &mut random);
        for _ in 0..4 {
            let pair = [0; 2].map(|_| random.below(edits as u64 + 1) as u32);
            same(&file, pair, &[15, 16, 4_081, 9_000]);
        }
        same(&file, [edits - 1, 0], &[1_000]);
        same(&file, [edits - 1, NONE], &[1_000]);
    }
}

/// Every length around the most that is held: 11, 16 or the list, for files that are longer than the block too.
#[test]
fn lengths_around_513_records() {
    let mut random = Random::new(2);
    let good = random_file(MOST as u32, &mut random);
    let long = [&good[..], &good[..], &good[..]].concat();
    for length in (8_191..8_226).chain([12_288, 16_383, 16_384, 16_385, 16_400, 24_575, 24_576]) {
        same(&long[..length], [511, 3], &[777, 4_096]);
    }
    let mut bad = good.clone();
    bad[8_191] = 1;
    same(&bad, [511, 3], &[4_096]);
    bad.extend([0; 16]);
    same(&bad, [511, 3], &[4_096]);
}

/// A regular file gives as much as a read has room for.
#[test]
fn a_read_that_fills_the_block() {
    let good = random_file(MOST as u32, &mut Random::new(3));
    let long = [&good[..], &good[..], &good[..]].concat();
    let path = Path::new(env!("CARGO_TARGET_TMPDIR")).join("long-edits");
    for length in [8_192, 16_383, 16_384, 16_385, 24_576] {
        fs::write(&path, &long[..length]).expect("a file");
        let output = asked(511, 3).stdin(File::open(&path).expect("it is there")).output().expect("it ends");
        let (text, errors) = wanted(&long[..length], 511, 3);
        assert_eq!(said(output, &errors), text, "{length} bytes");
    }
}

#[test]
fn refused_files() {
    let bad = file(&[[NONE, NONE], [1, NONE]]);
    same(&bad, [0, 0], &[1, 32]);
    same(&bad[..31], [0, 0], &[1, 31]);
    same(&[], [0, 0], &[1]);
    same(&file(&[[NONE, NONE]]), [0, 1], &[16]);
}

/// Two numbers from 0 to 4,294,967,295, in at most ten digits: anything else is said on standard error, and nothing is listed.
#[test]
fn arguments() {
    let edits = file(&[[NONE, NONE], [0, NONE]]);
    let ended = |words: &[&str]| {
        let mut program = program("editrun");
        program.args(words).stdin(Stdio::piped());
        let mut child = program.spawn().expect("it starts");
        // it may have ended before it reads
        let _ = child.stdin.take().expect("a pipe").write_all(&edits);
        child.wait_with_output().expect("it ends")
    };
    let malformed: [&[&str]; 18] = [
        &[],
        &["1"],
        &["1", "0", "0"],
        &["1", ""],
        &["", "1"],
        &["1", "x"],
        &["-1", "0"],
        &["+1", "0"],
        &[" 1", "0"],
        &["1 ", "0"],
        &["1", "0x0"],
        &["4294967296", "0"],
        &["0", "4294967296"],
        &["9999999999", "0"],
        &["00000000001", "0"],
        &["1", "12345678901234567890"],
        &["1/", "0"],
        &["1", ":"],
    ];
    for words in malformed {
        assert_eq!(said(ended(words), MALFORMED), "", "{words:?}");
    }
    for words in [["1", "0"], ["0000000001", "00"]] {
        assert_eq!(said(ended(&words), ""), "1\n", "{words:?}");
    }
    for words in [["4294967295", "0"], ["0", "4294967295"], ["2", "0"]] {
        assert_eq!(said(ended(&words), "editrun: refused by 4\n"), "", "{words:?}");
    }
}

/// A read that fails isn't the end of the input: nothing is listed.
#[test]
fn a_failed_read() {
    let folder = File::open(env!("CARGO_MANIFEST_DIR")).expect("it opens, and can't be read");
    assert_eq!(said(asked(0, 0).stdin(folder).output().expect("it ends"), UNREADABLE), "");

    let (mut ours, theirs) = UnixStream::pair().expect("two sockets");
    theirs.set_nonblocking(true).expect("then a read of nothing fails");
    ours.write_all(&file(&[[NONE, NONE], [0, NONE]])).expect("room");
    let output = asked(1, 0).stdin(OwnedFd::from(theirs)).output().expect("it ends");
    assert_eq!(said(output, UNREADABLE), "");
}

#[test]
fn a_failed_write() {
    let edits = Path::new(env!("CARGO_TARGET_TMPDIR")).join("two-edits");
    fs::write(&edits, file(&[[NONE, NONE], [0, NONE]])).expect("a file");
    let full = File::options().write(true).open("/dev/full").expect("Linux has it");
    let output = asked(1, 0).stdin(File::open(&edits).expect("it is there")).stdout(full).output().expect("it ends");
    said(output, UNWRITABLE);
}
