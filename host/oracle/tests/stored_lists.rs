//! The lists in `docs/oracle`, and the input and output of the program `replay`, are those that the
//! oracle makes today, byte for byte.

use oracle::row::rowrun;
use oracle::stored::{answers_text, coverage_text, replay_input, replay_output, stored};
use std::path::Path;

#[test]
fn the_stored_lists_are_made_again_byte_for_byte() {
    let folder = Path::new(env!("CARGO_MANIFEST_DIR")).join("../../docs/oracle");
    let read = |name: &str, ending: &str| {
        let path = folder.join(name).with_extension(ending);
        std::fs::read(&path).unwrap_or_else(|error| panic!("{}: {error}", path.display()))
    };
    let lists = stored();
    for list in &lists {
        assert!(read(list.name, "txt") == list.text.as_bytes(), "{}.txt differs", list.name);
        assert!(read(list.name, "in") == list.records, "{}.in differs", list.name);
    }
    assert!(read("coverage", "txt") == coverage_text(&lists).as_bytes(), "coverage.txt differs");
    let calls: u64 = lists.iter().map(|list| list.coverage.calls()).sum();
    println!("{} stored lists, {calls} calls", lists.len());
    assert_eq!((lists.len(), calls), (5, 1_552));
}

/// What the gate feeds to the program `replay` and holds its output to.
#[test]
fn the_program_replays_the_stored_lists() {
    let folder = Path::new(env!("CARGO_MANIFEST_DIR")).join("../../crates/replay");
    let read =
        |name: &str| std::fs::read(folder.join(name)).unwrap_or_else(|error| panic!("crates/replay/{name}: {error}"));
    let lists = stored();
    assert!(read("stdin") == replay_input(&lists), "crates/replay/stdin differs");
    assert!(read("stdout") == replay_output(&lists).as_bytes(), "crates/replay/stdout differs");
    assert_eq!(replay_output(&lists).lines().count(), 1_552);
}

/// The list at fan 8 starts as `rowrun` does: what this prints is the number and fields of each line.
#[test]
fn the_list_at_fan_8_is_a_run_of_rowrun() {
    let lists = stored();
    let list = lists.iter().find(|list| list.name == "fan8").expect("there is a list at fan 8");
    let answers = answers_text(list);
    assert_eq!(rowrun(&list.records), answers);
    assert_eq!(answers.lines().count(), 200);
}
