//! `cargo run --release -p beside --bin long -- MILLIONS [SEED]`: random lists on lib.rs and the port beside the row, compared as
//! the tests compare them, of at least so many million calls.

use beside::lists::{both, runs};
use oracle::coverage::{Coverage, CursorCoverage};
use oracle::fans::FANS;

/// The calls of one list in each of the five runs at each fan.
const CALLS: u64 = 5 * FANS.len() as u64 * 5_000;

fn main() {
    let mut words = std::env::args().skip(1).map(|word| word.parse::<u64>().expect("a number"));
    let millions = words.next().unwrap_or(10);
    let seed = words.next().unwrap_or(1_000_000);
    let (mut met, mut cursors) = (Coverage::default(), CursorCoverage::default());
    for run in runs((millions * 1_000_000).div_ceil(CALLS)) {
        let (at_fans, of_run) = run.at_each_fan(both, seed);
        at_fans.iter().for_each(|at_fan| met += at_fan);
        cursors += &of_run;
    }
    assert!(cursors.whole(), "{cursors:?}");
    println!("{} calls, every answer, cursor and word alike: {met:?}, {cursors:?}", met.calls());
}
