//! The program `rowrun` beside the plain row: what it prints, however its input is cut, and how it ends.

use beside::lists::for_a_program;
use beside::program::{self, bytes, said, BLOCK};
use oracle::record::{Answer, Record};
use oracle::row::{rowrun, Row};
use std::collections::BTreeSet;
use std::fs::File;
use std::io::{BufRead, BufReader, Read, Write};
use std::os::fd::OwnedFd;
use std::os::unix::net::UnixStream;
use std::process::{Command, Stdio};

const LIMIT: u32 = 512;
const UNREADABLE: &str = "rowrun: standard input can't be read\n";
const UNWRITABLE: &str = "rowrun: standard output can't be written\n";

fn program() -> Command {
    program::program("rowrun")
}

/// What is printed of an input that comes through a pipe in pieces of that size, each written when all before is answered.
fn piped(input: &[u8], size: usize) -> String {
    let mut child = program().stdin(Stdio::piped()).spawn().expect("it starts");
    let mut stdin = child.stdin.take().expect("a pipe");
    let mut stdout = BufReader::new(child.stdout.take().expect("a pipe"));
    let (mut printed, mut written, mut lines) = (String::new(), 0, 0);
    for piece in input.chunks(size) {
        stdin.write_all(piece).expect("it reads on");
        written += piece.len();
        while lines < written / 16 {
            assert!(stdout.read_line(&mut printed).expect("text") > 0, "it ends after {lines} lines");
            lines += 1;
        }
    }
    drop(stdin);
    stdout.read_to_string(&mut printed).expect("text");
    said(child.wait_with_output().expect("it ends"), "");
    printed
}

/// The same where each read gets one piece.
fn cut(input: &[u8], size: usize) -> String {
    said(program::cut("rowrun", input, size), "")
}

fn list() -> Vec<Record> {
    for_a_program(LIMIT)
}

fn answers(limit: u32, records: &[Record]) -> Vec<Answer> {
    let mut row = Row::make(limit, [0; 3]);
    records.iter().map(|record| row.play(record)).collect()
}

#[test]
fn the_list_meets_every_answer() {
    let list = list();
    let met: BTreeSet<_> =
        list.iter().zip(answers(LIMIT, &list)).map(|(record, answer)| (record.kind, answer.number)).collect();
    assert!((1..=13).all(|kind| met.contains(&(kind, 0))), "{met:?}");
    assert!([4, 5, 6, 7, 8, 10, 17].iter().all(|number| met.iter().any(|(_, met)| met == number)), "{met:?}");
    assert!((2..=4).all(|kind| met.contains(&(kind, 8))), "{met:?}");
    let of_lines: BTreeSet<_> = list
        .iter()
        .zip(answers(LIMIT, &list))
        .filter(|(record, answer)| match record.kind {
            7 | 8 => record.byte1 == 2 && answer.number == 0,
            11 => answer.fields[2] > 0,
            kind => (1..=6).contains(&kind) && record.lines > 0 && answer.number == 0,
        })
        .map(|(record, _)| record.kind)
        .collect();
    assert_eq!(of_lines, BTreeSet::from([1, 2, 3, 4, 5, 6, 7, 8, 11]));
    // a tree that holds an entry less is found out, and a program that stops after two reads
    assert_ne!(answers(LIMIT - 1, &list), answers(LIMIT, &list));
    assert!(bytes(&list).len() > 2 * (BLOCK + 1) + 16);
}

#[test]
fn however_the_input_is_cut() {
    let input = bytes(&list());
    let wanted = rowrun(&input);
    for size in [1, 7, 16, 17, BLOCK - 1, BLOCK, BLOCK + 1] {
        assert_eq!(piped(&input, size), wanted, "a pipe, {size} bytes at a time");
    }
    for size in [1, 5, 15, 16, 17, BLOCK - 15] {
        assert_eq!(cut(&input, size), wanted, "{size} bytes a read");
    }
    println!("rowrun: {} bytes in 13 ways", input.len());
}

#[test]
fn tails() {
    let input = bytes(&list());
    for records in [0, 1, 256, 300] {
        for tail in 0..16 {
            let input = &input[..records * 16 + tail];
            let wanted = rowrun(input);
            assert_eq!(wanted.ends_with("11 0 0 0\n"), tail > 0);
            for size in [1, BLOCK - 1, BLOCK + 1] {
                assert_eq!(piped(input, size), wanted, "{records} records and {tail} bytes, {size} at a time");
            }
            assert_eq!(cut(input, 17), wanted, "{records} records and {tail} bytes, 17 a read");
        }
    }
    println!("rowrun: tails of 0 to 15 bytes behind 0, 1, 256 and 300 records");
}

/// A read that fails isn't the end of the input: all whole records have their lines, the bytes behind them none.
#[test]
fn a_failed_read() {
    let folder = File::open(env!("CARGO_MANIFEST_DIR")).expect("it opens, and can't be read");
    assert_eq!(said(program().stdin(folder).output().expect("it ends"), UNREADABLE), "");

    let (mut ours, theirs) = UnixStream::pair().expect("two sockets");
    theirs.set_nonblocking(true).expect("then a read of nothing fails");
    let input = bytes(&list()[..10]);
    ours.write_all(&input[..9 * 16 + 5]).expect("room");
    let output = program().stdin(OwnedFd::from(theirs)).output().expect("it ends");
    assert_eq!(said(output, UNREADABLE), rowrun(&input[..9 * 16]));
}

/// After a write that fails nothing more is read or written.
#[test]
fn a_failed_write() {
    let (mut ours, theirs) = UnixStream::pair().expect("two sockets");
    ours.write_all(&bytes(&list()[..2])[..20]).expect("room");
    drop(ours);
    let full = File::options().write(true).open("/dev/full").expect("Linux has it");
    let output = program().stdin(OwnedFd::from(theirs)).stdout(full).output().expect("it ends");
    said(output, UNWRITABLE);
}
