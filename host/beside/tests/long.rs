//! The longer run, at its shortest.

use std::process::Command;

#[test]
fn a_million_calls() {
    let ran = Command::new(env!("CARGO_BIN_EXE_long")).args(["1", "7"]).output().expect("it is built");
    let said = String::from_utf8(ran.stdout).expect("text");
    let last = said.lines().last().unwrap_or_default();
    println!("long 1 7: {last}");
    assert!(ran.status.success() && last.starts_with("1125000 calls, every answer, cursor and word alike"));
}
