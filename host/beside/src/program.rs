//! A program of the repository, run on bytes. It is the one that `rt run` proved and linked, in the gate `rt ci`.

use oracle::record::Record;
use std::os::fd::OwnedFd;
use std::os::unix::net::UnixDatagram;
use std::path::Path;
use std::process::{Command, Output, Stdio};

/// The most that `rowrun` and `sheetrun` read at once; `editrun` reads up to 16,384 bytes.
pub const BLOCK: usize = 4_096;

pub fn program(name: &str) -> Command {
    let path = Path::new(env!("CARGO_MANIFEST_DIR")).join("../../crates").join(name).join("out").join(name);
    assert!(path.exists(), "crates/{name}/out/{name} isn't there: rt run in crates/{name}");
    let mut program = Command::new(path);
    program.stdout(Stdio::piped()).stderr(Stdio::piped());
    program
}

/// How it ends on an input of which each read gets one piece: a datagram, and an empty one as the end. What a read has no room
/// for is lost.
pub fn cut(name: &str, input: &[u8], size: usize) -> Output {
    cut_for(program(name), input, size)
}

/// The same of a program with arguments.
pub fn cut_for(mut program: Command, input: &[u8], size: usize) -> Output {
    assert!(size + 15 <= BLOCK);
    let (ours, theirs) = UnixDatagram::pair().expect("two sockets");
    let child = program.stdin(OwnedFd::from(theirs)).spawn().expect("it starts");
    let ended = std::thread::spawn(|| child.wait_with_output().expect("it ends"));
    for piece in input.chunks(size).chain([&[][..]]) {
        ours.send(piece).expect("it reads on");
    }
    ended.join().expect("no panic")
}

/// What was printed, with that on standard error.
pub fn said(Output { status, stdout, stderr }: Output, errors: &str) -> String {
    assert!(status.success());
    assert_eq!(String::from_utf8_lossy(&stderr), errors);
    String::from_utf8(stdout).expect("text")
}

pub fn bytes(records: &[Record]) -> Vec<u8> {
    records.iter().flat_map(Record::encode).collect()
}
