//! The functions that the compiler left out of line in each static library. A call costs what its tests cost only while these are
//! compiled into it: one that falls out of line takes its structs through memory, and every call over it gets slower.

use std::collections::BTreeSet;
use std::process::Command;

/// What isn't compiled into its callers: audit's test of a node's children, and what is done once in many insertions.
const OUT_OF_LINE: [&str; 4] = [
    "calls_audit::link::are_children",
    "tree_links::grow::add_child",
    "tree_links::split::grow_root",
    "tree_place::room::split_leaf",
];

/// The planning tree's: of the same list what it has, what more than one of its calls uses, and the lookup that first_at and last_at make.
const OUT_OF_LINE_IN_PLANNING: [&str; 8] = [
    "calls_audit::link::are_children",
    "calls_by_id::order::rank",
    "calls_read::any::cursor",
    "calls_read::any::id",
    "tree_links::grow::add_child",
    "tree_links::split::grow_root",
    "tree_place::room::split_leaf",
    "calls_planning::hold::held",
];

/// The reading copy's: the same less audit, the planning tree's rank and the lookup that only one of its calls makes.
const OUT_OF_LINE_IN_READING: [&str; 5] = [
    "calls_read::any::cursor",
    "calls_read::any::id",
    "tree_links::grow::add_child",
    "tree_links::split::grow_root",
    "tree_place::room::split_leaf",
];

/// The names of a kind (`T` for exports, `t` for local functions) in what nm lists.
fn of_kind<'a>(symbols: &'a str, kind: &str) -> BTreeSet<&'a str> {
    symbols.lines().filter_map(|line| line.split_once(&format!(" {kind} "))).map(|(_, name)| name).collect()
}

/// What nm lists of a library.
fn symbols(library: &str, options: &[&str]) -> String {
    let nm = Command::new("nm").args(options).arg(library).output().expect("nm is there, as binutils has it");
    String::from_utf8(nm.stdout).expect("nm prints text")
}

fn are_out_of_line(library: &str, one_export: &str, wanted: &[&str]) {
    let symbols = symbols(library, &[]);
    let (exports, local) = (of_kind(&symbols, "T"), of_kind(&symbols, "t"));
    println!("{} exports, out of line: {local:?}", exports.len());
    assert!(exports.contains(one_export), "nm lists no exports:\n{symbols}");
    assert_eq!(
        local,
        wanted.iter().copied().collect(),
        "the library's local functions. One that is new is no longer compiled into its callers: give it one caller, or split it, or \
         hand it scalars instead of structs (docs/BENCHMARKS.md, What was done), and measure by host/bench. One that is gone is \
         compiled in now: measure, and take it off the list."
    );
}

#[test]
fn only_these_functions_are_out_of_line() {
    are_out_of_line(env!("SMELVOCK_LIBRARY"), "smelvock_locate", &OUT_OF_LINE);
    are_out_of_line(env!("SMELVOCK_PLANNING_LIBRARY"), "smelvock_plan_last_at", &OUT_OF_LINE_IN_PLANNING);
    are_out_of_line(env!("SMELVOCK_READING_LIBRARY"), "smelvock_read_lookup", &OUT_OF_LINE_IN_READING);
}

/// The libraries have functions of the same crates below them, each its own: no name but an export's is seen outside, so that a program
/// links any of them together.
#[test]
fn no_two_libraries_export_the_same_name() {
    let mut seen = BTreeSet::new();
    for library in [
        env!("SMELVOCK_LIBRARY"),
        env!("SMELVOCK_PLANNING_LIBRARY"),
        env!("SMELVOCK_READING_LIBRARY"),
        env!("DOOR_LIBRARY"),
    ] {
        for name in symbols(library, &["--extern-only", "--defined-only"])
            .lines()
            .filter_map(|line| line.split_whitespace().nth(2))
        {
            assert!(seen.insert(name.to_owned()), "two libraries have {name}");
        }
    }
    println!("{} exports", seen.len());
    let wanted = ["smelvock_new_words", "smelvock_plan_new", "smelvock_read_new", "door"];
    assert!(wanted.iter().all(|&name| seen.contains(name)), "{seen:?}");
}
