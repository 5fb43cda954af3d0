//! The program itself: a recorded session, the README's, its options, and how it ends.

use std::fs;
use std::io::Write;
use std::path::{Path, PathBuf};
use std::process::{Command, Output, Stdio};

fn here(file: &str) -> PathBuf {
    Path::new(env!("CARGO_MANIFEST_DIR")).join(file)
}

fn text(file: &str) -> String {
    fs::read_to_string(here(file)).expect("the file is there")
}

/// Status, standard output and standard error on that input.
fn run(options: &[&str], input: &[u8]) -> (Option<i32>, String, String) {
    let mut program = Command::new(env!("CARGO_BIN_EXE_sheet"));
    program.args(options).stdin(Stdio::piped()).stdout(Stdio::piped()).stderr(Stdio::piped());
    let mut child = program.spawn().expect("it starts");
    _ = child.stdin.take().expect("a pipe").write_all(input);
    let Output { status, stdout, stderr } = child.wait_with_output().expect("it ends");
    let said = |bytes: Vec<u8>| String::from_utf8(bytes).expect("text");
    (status.code(), said(stdout), said(stderr))
}

/// `cargo run -p sheet -- --echo --beside < sheet/tests/session.txt > sheet/tests/session.out`, from host/, recorded it. What differs are
/// the words damaged at its end.
#[test]
fn the_recorded_session() {
    let (status, said, errors) = run(&["--echo", "--beside"], text("tests/session.txt").as_bytes());
    assert_eq!(said, text("tests/session.out"));
    assert_eq!((status, errors.as_str()), (Some(1), ""));
    assert_eq!(
        said.matches("differs: ").count(),
        3,
        "a stale sum, and an entry that is there twice, before its repair and after"
    );
    assert!(said.ends_with("> quit\nbye\n"), "quit ends it, though a line follows");
}

/// The README's lines behind `> ` are played, and what is said must stand there.
#[test]
fn the_readmes_session() {
    let readme = text("../../README.md");
    let blocks = readme.split("```").skip(1).step_by(2).filter(|block| block.starts_with("\n> "));
    let blocks = blocks.map(|block| block.trim_start_matches('\n')).collect::<Vec<_>>();
    assert_eq!(blocks.len(), 1);
    for block in blocks {
        let lines = block.lines().filter_map(|line| line.strip_prefix("> ")).collect::<Vec<_>>();
        println!("{} lines of the README", lines.len());
        let (status, said, errors) = run(&["--echo", "--beside"], lines.join("\n").as_bytes());
        assert_eq!((status, said.as_str(), errors.as_str()), (Some(0), block, ""));
    }
}

#[test]
fn the_options() {
    let (status, said, errors) = run(&["--help"], b"");
    assert_eq!((status, errors.as_str()), (Some(0), ""));
    assert!(["--beside", "--echo", "--dot FILE", "--svg FILE"].iter().all(|option| said.contains(option)), "{said}");
    for (options, why) in [
        (&["--besides"][..], "sheet: --besides: no such option\n"),
        (&["--echo", "--dot"], "sheet: --dot: a file is missing\n"),
        (&["--svg"], "sheet: --svg: a file is missing\n"),
    ] {
        let (status, said, errors) = run(options, b"count\n");
        assert_eq!((status, said.as_str()), (Some(2), ""));
        assert!(errors.starts_with(why) && errors.contains("sheet [--beside]"), "{errors}");
    }
    let (status, said, errors) = run(&["--dot", "no/such/folder/x"], b"count\n");
    assert_eq!((status, said.as_str()), (Some(2), "1 entry\n"));
    assert!(errors.starts_with("sheet: no/such/folder/x can't be written: "), "{errors}");
}

/// What `--dot` and `--svg` write is what the commands say, at the end of the input.
#[test]
fn the_pictures_are_written() {
    let folder = PathBuf::from(env!("CARGO_TARGET_TMPDIR"));
    let [dot, svg] = ["last.dot", "last.svg"].map(|file| folder.join(file).display().to_string());
    let (status, said, _) = run(&["--dot", &dot, "--svg", &svg], b"insert end 3 4 1\ndot\nsvg\n");
    assert_eq!(status, Some(0));
    let written = [&dot, &svg].map(|file| fs::read_to_string(file).expect("it was written"));
    assert_eq!(said, format!("entry 1, at effect position 0\n{}{}", written[0], written[1]));
    let (_, said, _) = run(&[], format!("insert end 3 4 1\ndot {dot}2\nsvg {svg}2\nsvg no/such/x\n").as_bytes());
    assert!(said.contains(&format!("\nwritten to {dot}2\nwritten to {svg}2\nno/such/x can't be written: ")), "{said}");
    assert_eq!([dot + "2", svg + "2"].map(|file| fs::read_to_string(file).expect("it was written")), written);
}

/// Bytes that aren't text, a line without an end and one of other blanks are lines like any other.
#[test]
fn any_bytes_go_on() {
    let (status, said, errors) = run(&[], b"\xff\xfe 1\n\n  # a comment\r\n\tcount  # another\r\ninsert end 1 1");
    assert_eq!((status, errors.as_str()), (Some(0), ""));
    let lines = said.lines().collect::<Vec<_>>();
    assert!(lines[0].starts_with("not understood: `\u{fffd}\u{fffd}` is no command; expected one of: "), "{said}");
    assert_eq!(lines[1..], ["1 entry", "entry 1, at effect position 0"]);
}
