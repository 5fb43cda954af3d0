//! Long random lists beside the row, at each fan: more than a million calls.

use oracle::coverage::Coverage;
use oracle::fans::rust;
use oracle::lists::{with_resets, Sizes, Style, EVEN, GROWING, LOOKING};
use oracle::runs::Run;
use oracle::state::MOST_LINES;

/// The run at each fan. It must meet all of the finger's ways and every view at each, try hollow splits and such with a part of line ends
/// alone, and over all of them hand a cursor of every call that answers one to every kind of call that takes one.
fn at_each_fan(run: Run) -> Coverage {
    let mut met = Coverage::default();
    let (at_fans, cursors) = run.at_each_fan(rust, 0);
    for at_fan in &at_fans {
        assert!(at_fan.finger_whole() && at_fan.every_view() && at_fan.every_split());
        assert!(at_fan.leaf_splits > 0 && at_fan.leaf_split_under_finger > 0);
        met += at_fan;
    }
    assert!(met.root_growths > 0 && met.inner_splits > met.root_growths);
    assert!(cursors.whole() && cursors.refused > 0);
    met
}

#[test]
fn even_lists_of_every_kind() {
    let style = Style { weights: with_resets(EVEN), sizes: Sizes::Small, close: 50, miss: 4 };
    let run = Run { name: "even", style, limit: 900, first: [3; 3], lists: 9, calls: 6_000, check_every: 50 };
    let met = at_each_fan(run);
    assert_eq!(met.calls(), 486_000);
    assert!(met.all_kinds() && [4, 5, 6, 10].iter().all(|&number| met.refused[number] > 0));
}

#[test]
fn growing_to_the_limit() {
    let style = Style { weights: GROWING, sizes: Sizes::Small, close: 30, miss: 2 };
    let run = Run { name: "growing", style, limit: 2_000, first: [0, 1, 2], lists: 4, calls: 5_000, check_every: 100 };
    let met = at_each_fan(run);
    assert_eq!(met.calls(), 180_000);
    assert!(met.refused[8] > 0);
}

#[test]
fn zero_lengths() {
    let style = Style { weights: with_resets(LOOKING), sizes: Sizes::Zeros, close: 70, miss: 2 };
    let run = Run { name: "zeros", style, limit: 900, first: [0; 3], lists: 9, calls: 5_000, check_every: 50 };
    let met = at_each_fan(run);
    assert_eq!(met.calls(), 405_000);
    assert!(met.refused[5] > 0);
}

#[test]
fn totals_near_the_end_of_u32() {
    let style = Style { weights: with_resets(EVEN), sizes: Sizes::NearEnd, close: 50, miss: 2 };
    let first = [u32::MAX - 3, u32::MAX, MOST_LINES];
    let met =
        at_each_fan(Run { name: "near the end", style, limit: 900, first, lists: 9, calls: 5_000, check_every: 50 });
    assert_eq!(met.calls(), 405_000);
    assert!(met.refused[7] > 1_000);
}

#[test]
fn the_finger_close_by() {
    let style = Style { weights: LOOKING, sizes: Sizes::Small, close: 95, miss: 1 };
    let run = Run { name: "close by", style, limit: 1_500, first: [2, 1, 1], lists: 9, calls: 5_000, check_every: 20 };
    let met = at_each_fan(run);
    assert_eq!(met.calls(), 405_000);
    assert!(met.leaf_split_under_finger > 1_000 && met.served_backwards > 10_000);
}
