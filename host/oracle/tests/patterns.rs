//! Patterns that random lists meet too seldom: a leaf split under the finger, cursors handed on at every slot, and a deep tree.

use oracle::fans::{rust, Setup, FANS};
use oracle::patterns::{around_a_split, deep, fill, handed_on};

#[test]
fn lookup_then_split_of_that_leaf_then_lookup_close_by() {
    for fan in FANS {
        around_a_split(Setup { make: rust, fan, check_every: 4 });
    }
}

#[test]
fn a_cursor_handed_on_at_each_slot() {
    for fan in FANS {
        handed_on(Setup { make: rust, fan, check_every: 1 });
    }
}

#[test]
fn a_deep_tree_within_a_limit() {
    let met = deep(65_536, Setup { make: rust, fan: 4, check_every: 0 });
    assert_eq!((met.calls(), met.most_levels), (69_632, 14));
}

/// The audit after every call shows that the nodes in use stay within what the limit needs.
#[test]
fn every_small_limit_is_filled_and_passed_by_nothing() {
    let mut lists = 0;
    for (limit, way) in (1..=100).flat_map(|limit| (0..4).map(move |way| (limit, way))) {
        for fan in FANS {
            fill(limit, way, Setup { make: rust, fan, check_every: 1 });
            lists += 1;
        }
    }
    println!("{lists} trees filled to limits 1 to 100");
    assert_eq!(lists, 3_600);
}
