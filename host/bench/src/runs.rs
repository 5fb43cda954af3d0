//! What earlier runs of this program printed, read again: the least time of each call over all of them.

use std::io::{stdin, Read};

/// The least nanoseconds per call; lib.rs's behind a call where it was timed.
#[derive(Clone, Copy)]
pub struct Least {
    pub rust: f64,
    pub port: f64,
    pub called: Option<f64>,
}

/// The tables by title, each with its rows by name, in the order of the first run that has them.
pub struct Runs(Vec<(String, Vec<(String, Least)>)>);

impl Runs {
    pub fn read() -> Runs {
        let mut text = String::new();
        stdin().read_to_string(&mut text).expect("what bench printed, on the standard input");
        Runs::of(&text)
    }

    fn of(text: &str) -> Runs {
        let mut runs = Runs(Vec::new());
        let mut title = "";
        for line in text.lines().filter(|line| !line.trim().is_empty()) {
            match row(line) {
                Some((name, least)) => runs.note(title, &name, least),
                None if line.starts_with("ns per call") => (),
                None => title = line,
            }
        }
        runs
    }

    fn note(&mut self, title: &str, name: &str, least: Least) {
        let rows = at(&mut self.0, title, Vec::new);
        let known = at(rows, name, || least);
        known.rust = known.rust.min(least.rust);
        known.port = known.port.min(least.port);
        known.called = known.called.zip(least.called).map(|(one, other)| one.min(other));
    }

    /// The least times of one call in trees of so many entries.
    pub fn least(&self, fan: u32, entries: u32, name: &str) -> Option<Least> {
        let title = format!("N {fan}, {entries} entries");
        let (_, rows) = self.0.iter().find(|(known, _)| *known == title)?;
        rows.iter().find(|(known, _)| known == name).map(|(_, least)| *least)
    }

    /// The names of lib.rs's calls, in the order of the tables; those by slot are left out.
    pub fn calls(&self) -> Vec<&str> {
        let (_, rows) = self.0.first().expect("a table");
        let is_call = |(name, least): &&(String, Least)| least.called.is_some() && !name.starts_with("cursor, ");
        rows.iter().filter(is_call).map(|(name, _)| name.as_str()).collect()
    }

    /// How many entries the trees of the tables have.
    pub fn sizes(&self) -> Vec<u32> {
        let entries = |title: &str| title.strip_suffix(" entries")?.split_once(", ")?.1.parse().ok();
        let mut sizes: Vec<u32> = self.0.iter().filter_map(|(title, _)| entries(title)).collect();
        sizes.sort();
        sizes.dedup();
        sizes
    }

    /// The rows of the first table whose title begins so.
    pub fn rows(&self, title: &str) -> &[(String, Least)] {
        self.0.iter().find(|(known, _)| known.starts_with(title)).map_or(&[], |(_, rows)| rows)
    }
}

/// What is kept by that name, put there first where nothing is.
fn at<'a, T>(known: &'a mut Vec<(String, T)>, name: &str, make: impl FnOnce() -> T) -> &'a mut T {
    let place = known.iter().position(|(known, _)| known == name).unwrap_or_else(|| {
        known.push((name.to_string(), make()));
        known.len() - 1
    });
    &mut known[place].1
}

/// A line of a table: a name, and six or nine numbers.
fn row(line: &str) -> Option<(String, Least)> {
    let words: Vec<&str> = line.split_whitespace().collect();
    let name = words.iter().rposition(|word| word.parse::<f64>().is_err())? + 1;
    let numbers: Vec<f64> = words[name..].iter().flat_map(|word| word.parse()).collect();
    let (rust, port, called) = match numbers[..] {
        [_, _, _, rust, port, _] => (rust, port, None),
        [_, _, _, rust, port, _, _, called, _] => (rust, port, Some(called)),
        _ => return None,
    };
    Some((words[..name].join(" "), Least { rust, port, called }))
}

#[test]
fn the_least_of_two_runs() {
    let runs = Runs::of(
        "N 8, 512 entries\n\
         ns per call   lib.rs  port  ratio   least  least  ratio   called  least  ratio\n\
         print, per line                 290.31     18.13    0.06       288.12     17.17    0.06   \n\
         locate, split, update, insert     70.59     94.21    1.33        61.07     92.37    1.51        80.18     52.60    1.76\n\n\
         N 8, 512 entries\n\
         locate, split, update, insert     70.59     94.21    1.33        62.07     90.37    1.51        80.18     51.60    1.76\n",
    );
    let name = "locate, split, update, insert";
    let Some(Least { rust, port, called }) = runs.least(8, 512, name) else { panic!("the row is there") };
    assert_eq!((rust, port, called), (61.07, 90.37, Some(51.6)));
    assert_eq!((runs.calls(), runs.sizes(), runs.rows("N 8").len()), (vec![name], vec![512], 2));
}
