//! `cargo run --release -p histories --bin sheets [SHEETS [EDITS [THREADS]]]`: how many sheets of so many edits are merged in a second, on
//! one thread, on two, on four and so on up to THREADS, on the proved tree and on lib.rs's; the best of five rounds.

use histories::history;
use merge::side_by_side::{merged, History};
use merge::tree::Tree;
use oracle::random::Random;
use oracle::tree as lib_rs;
use smelvock::PrepareEffectTree;
use std::thread::available_parallelism;
use std::time::Instant;

const HISTORIES: u64 = 32;
const ROUNDS: usize = 5;

fn main() {
    let given: Vec<usize> = std::env::args().skip(1).map(|number| number.parse().expect("a number")).collect();
    let number = |place: usize, usual| given.get(place).copied().unwrap_or(usual);
    let processors = available_parallelism().map_or(1, usize::from);
    let (sheets, edits, most) = (number(0, 2_000), number(1, 200), number(2, 2 * processors));
    let histories: Vec<History> = (0..HISTORIES).map(|seed| history(&mut Random::new(seed), 4, edits)).collect();
    println!("{sheets} sheets of {edits} edits, {processors} processors");
    println!("threads   sheets a second, port   to one thread   sheets a second, lib.rs   to one thread");
    let mut one = None;
    for threads in std::iter::successors(Some(1), |threads| Some(2 * threads)).take_while(|&threads| threads <= most) {
        let [port, rust] = timed(&histories, sheets, threads);
        let [port_alone, rust_alone] = *one.get_or_insert([port, rust]);
        println!("{threads:7}{port:24.0}{:16.2}{rust:26.0}{:16.2}", port / port_alone, rust / rust_alone);
    }
}

/// Sheets a second on both trees, in turn in every round.
fn timed(histories: &[History], sheets: usize, threads: usize) -> [f64; 2] {
    let mut best = [0.0f64; 2];
    for _ in 0..ROUNDS {
        let port = round::<PrepareEffectTree<8>>(histories, sheets, threads);
        let rust = round::<lib_rs::PrepareEffectTree<8>>(histories, sheets, threads);
        best = [best[0].max(port), best[1].max(rust)];
    }
    best
}

fn round<T: Tree>(histories: &[History], sheets: usize, threads: usize) -> f64 {
    let start = Instant::now();
    let done = merged::<T>(histories, sheets, threads);
    let seconds = start.elapsed().as_secs_f64();
    assert!(done.len() == sheets && done.iter().all(Result::is_ok));
    sheets as f64 / seconds
}
