//! Every list up to a given length over a small alphabet of calls, at each fan, from several
//! starts. Entries and audit are compared at the end of each list; what a longer list begins with is
//! a list of its own, so every call of every list is followed by a check.

use oracle::fans::rust;
use oracle::patterns::{all_kinds, every_short_list_at_each_fan, movers};

#[test]
fn every_list_of_up_to_three_calls_of_all_kinds() {
    let met = every_short_list_at_each_fan(all_kinds, 3, rust);
    assert!(met.all_kinds() && met.hollow.iter().all(|&count| count > 0));
    assert_eq!(met.checks, 46 * (24 + 576 + 13_824));
}

#[test]
fn every_list_of_up_to_five_moving_calls() {
    let met = every_short_list_at_each_fan(movers, 5, rust);
    assert!(met.refused[8] > 0 && met.refused[17] > 0);
    assert_eq!(met.checks, 46 * (9 + 81 + 729 + 6_561 + 59_049));
}
