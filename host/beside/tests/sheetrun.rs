//! The program `sheetrun` beside the plain row: the sheet of the state that its input leaves, however the input is cut, and how it
//! ends.

use beside::lists::for_a_program;
use beside::program::{bytes, cut, program, said, BLOCK};
use oracle::record::Record;
use oracle::sheet::{sheetrun, PAGE_BYTES};
use oracle::state::NONE;
use std::fs::{self, File};
use std::io::Write;
use std::os::fd::OwnedFd;
use std::os::unix::net::UnixStream;
use std::path::Path;
use std::process::Stdio;

const LIMIT: u32 = 512;
const UNREADABLE: &str = "sheetrun: standard input can't be read\n";
const UNWRITABLE: &str = "sheetrun: standard output can't be written\n";
const NOT_WHOLE: &str = "sheetrun: the last record isn't whole\n";

/// What standard error gets at the end of an input: bytes that are no whole record are left out of the sheet.
fn errors(input: &[u8]) -> &'static str {
    if input.len().is_multiple_of(16) {
        ""
    } else {
        NOT_WHOLE
    }
}

/// What is printed of an input that comes through a pipe in pieces of that size.
fn piped(input: &[u8], size: usize) -> String {
    let mut child = program("sheetrun").stdin(Stdio::piped()).spawn().expect("it starts");
    let mut stdin = child.stdin.take().expect("a pipe");
    for piece in input.chunks(size) {
        stdin.write_all(piece).expect("it reads on");
    }
    drop(stdin);
    said(child.wait_with_output().expect("it ends"), errors(input))
}

/// The row's sheet, through a pipe in pieces of several sizes, and read by read.
fn same_sheet(input: &[u8], name: &str) {
    let wanted = sheetrun(input);
    for size in [1, 7, 16, 17, BLOCK - 1, BLOCK, BLOCK + 1] {
        assert_eq!(piped(input, size), wanted, "{name}: a pipe, {size} bytes at a time");
    }
    for size in [1, 5, 15, 16, 17, BLOCK - 15] {
        let printed = said(cut("sheetrun", input, size), errors(input));
        assert_eq!(printed, wanted, "{name}: {size} bytes a read");
    }
    println!("sheetrun: {name}, {} bytes in 13 ways, {} pages", input.len(), wanted.len() / PAGE_BYTES);
}

#[test]
fn no_record() {
    same_sheet(&[], "no record");
}

/// Document 01's sample, with its short tail.
#[test]
fn the_sample_of_rowrun() {
    let path = Path::new(env!("CARGO_MANIFEST_DIR")).join("../../crates/rowrun/stdin");
    same_sheet(&fs::read(path).expect("the sample is there"), "rowrun's sample");
}

/// Those past the limit are refused: 512 lines on eleven pages.
#[test]
fn inserts_past_the_limit() {
    let inserts: Vec<_> =
        (0..600).map(|drawn| Record::new(2, 0, if drawn % 2 == 0 { NONE } else { drawn / 3 }, drawn, 1)).collect();
    let input = bytes(&inserts);
    assert_eq!(sheetrun(&input).len(), 11 * PAGE_BYTES);
    same_sheet(&input, "600 inserts");
}

#[test]
fn calls_of_every_kind() {
    same_sheet(&bytes(&for_a_program(LIMIT)), "calls of every kind");
}

/// One page until there are fifty entries, two from then on; the row is the program's at each step.
#[test]
fn at_every_number_of_records_around_a_page() {
    let list = for_a_program(LIMIT);
    for records in [1, 2, 3, 255, 256, 257].into_iter().chain(40..=130) {
        let input = bytes(&list[..records]);
        assert_eq!(piped(&input, BLOCK), sheetrun(&input), "{records} records");
    }
    let pages = [40, 130].map(|records| sheetrun(&bytes(&list[..records])).len() / PAGE_BYTES);
    assert!(pages[0] < pages[1], "{pages:?}");
}

#[test]
fn tails() {
    let input = bytes(&for_a_program(LIMIT));
    for records in [0, 1, 256, 300] {
        for tail in 0..16 {
            let input = &input[..records * 16 + tail];
            let wanted = sheetrun(input);
            for size in [1, BLOCK - 1, BLOCK + 1] {
                assert_eq!(piped(input, size), wanted, "{records} records and {tail} bytes, {size} at a time");
            }
        }
    }
    println!("sheetrun: tails of 0 to 15 bytes behind 0, 1, 256 and 300 records");
}

/// A read that fails isn't the end of the input: no sheet is printed.
#[test]
fn a_failed_read() {
    let folder = File::open(env!("CARGO_MANIFEST_DIR")).expect("it opens, and can't be read");
    assert_eq!(said(program("sheetrun").stdin(folder).output().expect("it ends"), UNREADABLE), "");

    let (mut ours, theirs) = UnixStream::pair().expect("two sockets");
    theirs.set_nonblocking(true).expect("then a read of nothing fails");
    ours.write_all(&bytes(&for_a_program(LIMIT)[..10])).expect("room");
    let output = program("sheetrun").stdin(OwnedFd::from(theirs)).output().expect("it ends");
    assert_eq!(said(output, UNREADABLE), "");
}

#[test]
fn a_failed_write() {
    let full = File::options().write(true).open("/dev/full").expect("Linux has it");
    let output = program("sheetrun").stdin(Stdio::null()).stdout(full).output().expect("it ends");
    said(output, UNWRITABLE);
}
