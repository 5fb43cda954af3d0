//! Subjects timed in turn.

use std::time::Instant;

/// Nanoseconds per call: the median of the rounds, and the least, which other work on the machine disturbs the least.
#[derive(Clone, Copy)]
struct Times {
    median: f64,
    least: f64,
}

struct Row {
    name: String,
    rust: Times,
    port: Times,
    /// lib.rs behind calls that aren't inlined.
    called: Option<Times>,
}

pub struct Table {
    title: String,
    rounds: usize,
    rows: Vec<Row>,
}

impl Table {
    pub fn new(title: String, rounds: usize) -> Table {
        Table { title, rounds, rows: Vec::new() }
    }

    /// A kind of call: each side is run once a round and says how many calls it made.
    pub fn kind(&mut self, name: &str, mut rust: impl FnMut() -> usize, mut port: impl FnMut() -> usize) {
        let [rust, port] = self.timed([&mut rust, &mut port]);
        self.rows.push(Row { name: name.to_string(), rust, port, called: None });
    }

    /// One of lib.rs's calls: also behind a call.
    pub fn call(
        &mut self,
        name: &str,
        mut rust: impl FnMut() -> usize,
        mut called: impl FnMut() -> usize,
        mut port: impl FnMut() -> usize,
    ) {
        let [rust, called, port] = self.timed([&mut rust, &mut called, &mut port]);
        self.rows.push(Row { name: name.to_string(), rust, port, called: Some(called) });
    }

    fn timed<const K: usize>(&self, mut sides: [&mut dyn FnMut() -> usize; K]) -> [Times; K] {
        let mut times = [const { Vec::new() }; K];
        sides.iter_mut().for_each(|side| _ = side());
        for _ in 0..self.rounds {
            for (side, times) in sides.iter_mut().zip(&mut times) {
                times.push(timed(side));
            }
        }
        times.map(summed_up)
    }

    /// Medians, least times, and lib.rs behind a call, each with the port's ratio to it; for the last the least times' ratio.
    pub fn print(&self) {
        println!("{}", self.title);
        println!(
            "{:<28}{:>10}{:>10}{:>8}   {:>10}{:>10}{:>8}   {:>10}{:>10}{:>8}",
            "ns per call", "lib.rs", "port", "ratio", "least", "least", "ratio", "called", "least", "ratio"
        );
        for Row { name, rust, port, called } in &self.rows {
            print!("{name:<28}");
            for (rust, port) in [(rust.median, port.median), (rust.least, port.least)] {
                print!("{rust:>10.2}{port:>10.2}{:>8.2}   ", port / rust);
            }
            if let Some(Times { median, least }) = called {
                print!("{median:>10.2}{least:>10.2}{:>8.2}", port.least / least);
            }
            println!();
        }
        println!();
    }
}

fn timed(run: &mut dyn FnMut() -> usize) -> f64 {
    let start = Instant::now();
    let calls = run();
    start.elapsed().as_nanos() as f64 / calls as f64
}

fn summed_up(mut times: Vec<f64>) -> Times {
    times.sort_by(f64::total_cmp);
    Times { median: times[times.len() / 2], least: times[0] }
}
