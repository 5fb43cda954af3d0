//! lib.rs and the port on the same lists, beside the row, which settles line ends: every answer, each cursor's leaf and slot, every word
//! of head and areas after every call, and the number of every refused call. More than two million calls in a release build.

use beside::lists::{both, runs};
use oracle::coverage::Coverage;
use oracle::fans::{Setup, FANS};
use oracle::patterns::{all_kinds, around_a_split, deep, every_short_list_at_each_fan, fill, handed_on, movers};

/// A debug build plays fewer.
const SCALE: u64 = if cfg!(debug_assertions) { 1 } else { 10 };

/// Lists of each run at each fan: six are enough for every run to meet all of the finger's ways.
const LISTS: u64 = if cfg!(debug_assertions) { 6 } else { 9 };

fn at(fan: u32) -> Setup {
    Setup { make: both, fan, check_every: 0 }
}

/// Every run meets all of the finger's ways and every view at every fan, tries hollow splits, which are 17, and splits with a part of line
/// ends alone, which lib.rs makes without a length, hands a cursor of every call that answers one to every kind of call that takes one,
/// and splits leaves and inner nodes.
#[test]
fn random_lists() {
    let mut met = Coverage::default();
    for run in runs(LISTS) {
        let mut of_run = Coverage::default();
        let (at_fans, cursors) = run.at_each_fan(both, 0);
        for at_fan in &at_fans {
            assert!(at_fan.finger_whole() && at_fan.every_view() && at_fan.every_split(), "{}", run.name);
            assert!(at_fan.leaf_splits > 0 && at_fan.leaf_split_under_finger > 0, "{}", run.name);
            of_run += at_fan;
        }
        assert!(of_run.root_growths > 0 && of_run.inner_splits > of_run.root_growths, "{}", run.name);
        assert!(cursors.whole() && cursors.refused > 0, "{}", run.name);
        met += &of_run;
    }
    println!("random lists: {} calls, {met:?}", met.calls());
    assert_eq!(met.calls(), 5 * FANS.len() as u64 * LISTS * 5_000);
    assert!(met.all_kinds() && [4, 5, 6, 7, 8, 10, 17].iter().all(|&number| met.refused[number] > 0));
}

#[test]
fn every_short_list_of_all_kinds() {
    let met = every_short_list_at_each_fan(all_kinds, 2, both);
    assert!(met.hollow.iter().all(|&count| count > 0));
    assert_eq!(met.checks, 46 * (24 + 24 * 24));
}

#[test]
fn every_short_list_of_moving_calls() {
    let longest = if SCALE == 1 { 3 } else { 4 };
    let met = every_short_list_at_each_fan(movers, longest, both);
    assert_eq!(met.checks, 46 * (1..=longest).map(|length| 9u64.pow(length)).sum::<u64>());
}

#[test]
fn lookup_then_split_of_that_leaf_then_lookup_close_by() {
    for fan in FANS.into_iter().filter(|&fan| SCALE > 1 || fan <= 9) {
        around_a_split(at(fan));
    }
}

#[test]
fn a_cursor_handed_on_at_each_slot() {
    for fan in FANS {
        handed_on(at(fan));
    }
}

/// Every boundary of the limit: each small tree is filled in four ways, and one entry more is refused.
#[test]
fn every_small_limit_is_filled_and_passed_by_nothing() {
    let mut calls = 0;
    for (limit, way) in (1..=10 * SCALE as u32).flat_map(|limit| (0..4).map(move |way| (limit, way))) {
        for fan in FANS {
            calls += fill(limit, way, at(fan)).calls();
        }
    }
    println!("limits 1 to {}: {calls} calls", 10 * SCALE);
}

#[test]
fn a_deep_tree() {
    deep(if SCALE == 1 { 2_048 } else { 8_192 }, at(4));
}
