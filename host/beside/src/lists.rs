//! Random lists on both.

use crate::both::Both;
use oracle::at_fan;
use oracle::lists::{with_resets, Lister, Sizes, Style, EVEN, GROWING, LOOKING};
use oracle::record::Record;
use oracle::row::Row;
use oracle::runs::Run;
use oracle::rust::Subject;
use oracle::state::MOST_LINES;

/// lib.rs and the port.
pub fn both(fan: u32, limit: u32, lengths: [u32; 3]) -> Box<dyn Subject> {
    at_fan!(fan, N => Box::new(Both::<N>::make(limit, lengths)))
}

/// The runs, each of `lists` lists: every kind; growth to the limit; zero lengths; totals near 4,294,967,295; lookups close
/// to changes.
pub fn runs(lists: u64) -> [Run; 5] {
    let style = |weights, sizes, close| Style { weights, sizes, close, miss: 4 };
    let run = |name, style, limit, first| Run { name, style, limit, first, lists, calls: 5_000, check_every: 500 };
    [
        run("even", style(with_resets(EVEN), Sizes::Small, 50), 300, [3; 3]),
        run("growing", style(GROWING, Sizes::Small, 30), 1_200, [0, 1, 2]),
        run("zero lengths", style(with_resets(LOOKING), Sizes::Zeros, 70), 200, [0; 3]),
        run(
            "totals near the end",
            style(with_resets(EVEN), Sizes::NearEnd, 50),
            200,
            [u32::MAX - 3, u32::MAX, MOST_LINES],
        ),
        run("close by", style(LOOKING, Sizes::Small, 95), 400, [2, 1, 1]),
    ]
}

/// Calls of every kind for a program, good and refused, past that limit; then a reset, and others.
pub fn for_a_program(limit: u32) -> Vec<Record> {
    let mut row = Row::make(limit, [0; 3]);
    let mut records = Vec::new();
    for (seed, weights, sizes) in [(1, GROWING, Sizes::Small), (2, EVEN, Sizes::NearEnd)] {
        let mut lister = Lister::new(seed, Style { weights, sizes, close: 60, miss: 10 });
        for drawn in 0..1_500 {
            let record = if drawn == 0 { lister.good(1, &row) } else { lister.draw(&row) };
            row.play(&record);
            records.push(record);
        }
    }
    records
}
