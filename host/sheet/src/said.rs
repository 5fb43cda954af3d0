//! Answers in words.

use crate::tree::{Done, Reply};
use oracle::record::Call;
use oracle::state::{LINES, NONE};
use smelvock::Refusal;

/// What is said of a call's answer.
pub fn said(call: Call, reply: &Reply) -> String {
    match reply {
        Ok(done) => done_in_words(call, done),
        Err(refusal) => refusal.to_string(),
    }
}

/// What is said of an answer that may be refused, in these words if it isn't.
pub fn said_of<T>(answer: Result<T, Refusal>, words: impl FnOnce(T) -> String) -> String {
    answer.map_or_else(|refusal| refusal.to_string(), words)
}

/// A number of things, as `1 entry`, `2 entries`.
pub fn counted(number: u32, one: &str, more: &str) -> String {
    format!("{number} {}", if number == 1 { one } else { more })
}

/// Lengths in words.
pub fn lengths([prepare, effect, lines]: [u32; 3]) -> String {
    format!("prepare {prepare}, effect {effect}, {}", counted(lines, "line end", "line ends"))
}

fn slots(examined: u32) -> String {
    format!("{} examined", counted(examined, "slot", "slots"))
}

fn position(view: usize, number: u32) -> String {
    match view {
        LINES => format!("line {number}"),
        _ => format!("{} position {number}", ["prepare", "effect"][view]),
    }
}

fn done_in_words(call: Call, Done { fields: [first, second, third, fourth], examined }: &Done) -> String {
    match call {
        Call::Reset { lengths: given } => format!("a sheet of one entry, id 0: {}", lengths(given)),
        Call::Insert { .. } => format!("entry {first}, at effect position {second}"),
        Call::Split { id, before, .. } => {
            format!("entry {first}, just {} entry {id}", if before { "before" } else { "after" })
        }
        Call::Set { id, lengths: given } => format!("entry {id} has {}", lengths(given)),
        Call::Update { id, lengths: given } => {
            format!("entry {id} has {}, and stands at effect position {first}", lengths(given))
        }
        Call::Lookup { .. } => {
            let at = format!("it stands at effect position {third}, prepare position {fourth}");
            format!("entry {first}, offset {second}; {at}; {}", slots(*examined))
        }
        Call::Select { .. } => format!("entry {first}, offset {second}; {}", slots(*examined)),
        Call::Rank { view, id } => format!("entry {id} stands at {}", position(view, *first)),
        Call::Next { id } if *first == NONE => format!("none: entry {id} is the last"),
        Call::Next { .. } | Call::First => format!("entry {first}"),
        Call::Compare { first: one, second: other } => {
            let stands =
                ["stands before", "is", "stands after"].get(*first as usize).unwrap_or(&"doesn't compare with");
            format!("entry {one} {stands} entry {other}")
        }
        Call::Lengths { id } => format!("entry {id} has {}", lengths([*first, *second, *third])),
        Call::Count => counted(*first, "entry", "entries"),
    }
}
