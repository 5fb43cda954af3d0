//! `cargo run --release -p bench [ROUNDS [ENTRIES ..]]`: nanoseconds per call of lib.rs and of the port, and their ratio, for every kind of
//! call; for lib.rs's calls also lib.rs behind a call that isn't inlined. One process, the same inputs, the two or three in turn in every
//! round; the median of the rounds is printed, and the least.
//! `bench --table`, `--growth`, `--door`, `--repair` or `--svg FILE`: what runs printed, on the standard input, as a table or a picture of the least.

mod called;
mod changes;
mod copies;
mod door;
mod edits;
mod paper;
mod picture;
mod reads;
mod repair;
mod report;
mod runs;
mod timing;
mod trees;

use runs::Runs;
use timing::Table;
use trees::trees;

fn main() {
    let given: Vec<String> = std::env::args().skip(1).collect();
    match given.first().map(String::as_str) {
        Some("--table") => print!("{}", report::calls(&Runs::read())),
        Some("--growth") => print!("{}", report::growth(&Runs::read())),
        Some("--door") => print!("{}", report::door(&Runs::read())),
        Some("--repair") => print!("{}", report::repair(&Runs::read())),
        Some("--svg") => std::fs::write(&given[1], picture::svg(&Runs::read())).expect("the file can be written"),
        _ => measure(given.iter().map(|number| number.parse().expect("a number")).collect()),
    }
}

/// Measures over so many rounds, in trees of so many entries.
fn measure(given: Vec<u32>) {
    let (rounds, sizes) = given.split_first().map_or((25, &[][..]), |(&rounds, sizes)| (rounds as usize, sizes));
    for &entries in if sizes.is_empty() { &[512, 65_536] } else { sizes } {
        run::<4>(entries, rounds);
        run::<8>(entries, rounds);
        run::<32>(entries, rounds);
    }
    door::run(rounds);
    edits::run(rounds);
}

fn run<const N: usize>(entries: u32, rounds: usize) {
    let mut trees = trees::<N>(entries);
    let mut table = Table::new(format!("N {N}, {entries} entries"), rounds);
    reads::run(&mut table, &mut trees);
    paper::run(&mut table, &trees.rust, &trees.port);
    let sound = trees.port.0.clone();
    changes::resizes(&mut table, &mut trees);
    changes::growth::<N>(&mut table, entries);
    table.print();
    copies::run::<N>(entries, rounds);
    repair::run(&sound, entries, rounds);
}
