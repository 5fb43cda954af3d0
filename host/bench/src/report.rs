//! Tables for docs/BENCHMARKS.md.

use crate::repair;
use crate::runs::{Least, Runs};

const FANS: [u32; 3] = [4, 8, 32];

/// Every call of lib.rs at each fan, at the least and at the greatest number of entries.
pub fn calls(runs: &Runs) -> String {
    let sizes = runs.sizes();
    let ends = [sizes[0], sizes[sizes.len() - 1]];
    let columns: Vec<(u32, u32)> = ends.into_iter().flat_map(|size| FANS.map(|fan| (fan, size))).collect();
    let titles = columns.iter().map(|&(fan, entries)| format!("N {fan}, {}", grouped(entries as f64)));
    let rows = runs.calls().into_iter().map(|name| {
        let cells = columns.iter().map(|&(fan, entries)| runs.least(fan, entries, name).map_or("".into(), cell));
        (name.to_string(), cells.collect())
    });
    table("call", titles.collect(), rows.collect())
}

/// Some calls at each number of entries: lib.rs and the port.
pub fn growth(runs: &Runs) -> String {
    let names = [
        "entry_to_char_index prepare",
        "locate, random",
        "update",
        "insert, random + cursor",
        "split_entry, random + cursor",
    ];
    let titles = runs.sizes().into_iter().map(|entries| grouped(entries as f64));
    let row = |fan: u32, name: &str| {
        let cells = runs.sizes().into_iter().map(|entries| runs.least(fan, entries, name).map_or("".into(), pair));
        (format!("{name}, N {fan}"), cells.collect())
    };
    let rows = names.iter().flat_map(|name| FANS.map(|fan| row(fan, name)));
    table("call", titles.collect(), rows.collect())
}

/// The door beside lib.rs: nanoseconds a record, and millions of records a second.
pub fn door(runs: &Runs) -> String {
    let row = |(name, least): &(String, Least)| {
        let Least { rust, port, .. } = *least;
        let millions = format!("{:.1} / {:.1}", 1e3 / rust, 1e3 / port);
        (name.clone(), vec![pair(*least), millions])
    };
    let rows = runs.rows("door").iter().map(row).collect();
    table("records", vec!["ns a record".into(), "million records a second".into()], rows)
}

/// Audit and repair at each fan, at the greatest number of entries, in milliseconds.
pub fn repair(runs: &Runs) -> String {
    let entries = runs.sizes().into_iter().max().expect("a table");
    let rows_of = |fan: u32| runs.rows(&repair::title(fan, entries));
    let row = |place: usize, name: &String| {
        let cells = FANS.map(|fan| {
            let (_, Least { rust, port, .. }) = rows_of(fan)[place];
            let [audit, repair] = [rust, port].map(|an_entry| an_entry * entries as f64 / 1e6);
            format!("{audit:.2} / {repair:.2}, **{:.2}**", repair / audit)
        });
        (name.clone(), cells.to_vec())
    };
    let rows = rows_of(FANS[0]).iter().enumerate().map(|(place, (name, _))| row(place, name));
    table("tree", FANS.map(|fan| format!("N {fan}, {}", grouped(entries as f64))).to_vec(), rows.collect())
}

/// lib.rs, lib.rs behind a call, and the port; its ratios to both.
fn cell(Least { rust, port, called }: Least) -> String {
    let Some(called) = called else { return pair(Least { rust, port, called }) };
    let [rust_ns, called_ns, port_ns] = [rust, called, port].map(figure);
    format!("{rust_ns} / {called_ns} / {port_ns}, **{:.2}**, {:.2}", port / rust, port / called)
}

fn pair(Least { rust, port, .. }: Least) -> String {
    format!("{} / {}, **{:.2}**", figure(rust), figure(port), port / rust)
}

fn table(first: &str, titles: Vec<String>, rows: Vec<(String, Vec<String>)>) -> String {
    let mut text = format!("| {first} | {} |\n|{}\n", titles.join(" | "), "---|".repeat(1 + titles.len()));
    for (name, cells) in rows {
        text += &format!("| {name} | {} |\n", cells.join(" | "));
    }
    text
}

/// Three digits, or all in groups of three.
fn figure(ns: f64) -> String {
    if ns < 100.0 {
        format!("{ns:.1}")
    } else {
        grouped(ns)
    }
}

pub fn grouped(number: f64) -> String {
    let digits = format!("{number:.0}");
    let groups: Vec<&str> = digits.as_bytes().rchunks(3).rev().flat_map(std::str::from_utf8).collect();
    groups.join(",")
}
