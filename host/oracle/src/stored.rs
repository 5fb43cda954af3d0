//! The lists kept in `docs/oracle/`: lib.rs's answers and cursors, call by call.

use crate::coverage::Coverage;
use crate::driver::Line;
use crate::fans::{rust, Setup};
use crate::lists::{Lister, Sizes, Style, LOOKING};
use crate::record::Record;
use crate::rust::Seen;
use crate::state::NONE;

/// How one list comes about: a make, `at_end` records of kind 3 that put an entry at the end, and then calls
/// drawn, kind 3 and a reset among them.
struct Plan {
    name: &'static str,
    fan: u32,
    limit: u32,
    first: [u32; 3],
    at_end: u32,
    drawn: u32,
    reset_at: u32,
    seed: u64,
    /// How tall the tree must get.
    levels: u32,
}

/// `fan8` starts from the tree of the door and of `rowrun`. Only `fan32-tall` has enough entries to
/// split a root of 32 children.
const PLANS: [Plan; 5] = [
    Plan { name: "fan4", fan: 4, limit: 48, first: [3, 3, 0], at_end: 0, drawn: 200, reset_at: 12, seed: 7, levels: 3 },
    Plan { name: "fan5", fan: 5, limit: 48, first: [0, 2, 0], at_end: 0, drawn: 200, reset_at: 12, seed: 0, levels: 2 },
    Plan { name: "fan8", fan: 8, limit: 512, first: [0; 3], at_end: 0, drawn: 200, reset_at: 12, seed: 5, levels: 2 },
    Plan {
        name: "fan32",
        fan: 32,
        limit: 90,
        first: [5, 1, 0],
        at_end: 0,
        drawn: 300,
        reset_at: 12,
        seed: 2,
        levels: 1,
    },
    Plan {
        name: "fan32-tall",
        fan: 32,
        limit: 580,
        first: [2, 1, 0],
        at_end: 532,
        drawn: 120,
        reset_at: 119,
        seed: 26,
        levels: 2,
    },
];

/// A list as it is stored: as text with everything answered, and its records as bytes.
pub struct Stored {
    pub name: &'static str,
    /// Fan, limit, and prepare length, effect length and line ends of the first entry.
    pub made: [u32; 5],
    pub text: String,
    pub records: Vec<u8>,
    pub coverage: Coverage,
}

/// Every stored list. Each meets all kinds, the refusals 4 to 7, 10 and 17, both kinds of hollow splits, splits into a part of line ends
/// alone, leaf splits, all ways of the finger, lookups and ranks in every view, and its plan's levels; those that are drawn from the
/// start also a leaf split under the finger.
pub fn stored() -> Vec<Stored> {
    PLANS
        .iter()
        .map(|plan| {
            let list = play(plan);
            let met = &list.coverage;
            assert!(met.all_kinds() && met.finger_whole() && met.leaf_splits > 0, "{}: {met:?}", list.name);
            assert!(met.every_view() && met.every_split(), "{}: {met:?}", list.name);
            assert!(plan.at_end > 0 || met.leaf_split_under_finger > 0, "{}: {met:?}", list.name);
            assert!([4, 5, 6, 7, 10, 17].iter().all(|&number| met.refused[number] > 0), "{}: {met:?}", list.name);
            assert_eq!(
                (met.most_levels, met.calls()),
                (plan.levels, (plan.at_end + plan.drawn) as u64),
                "{}",
                list.name
            );
            list
        })
        .collect()
}

/// The standard input of the program `replay`: for each list two records of kind 0, whose words are
/// its make and its number of records, then its records.
pub fn replay_input(lists: &[Stored]) -> Vec<u8> {
    let mut input = Vec::new();
    for list in lists {
        let [fan, limit, prepare, effect, lines] = list.made;
        input.extend(Record::new(0, 0, fan, limit, prepare).encode());
        input.extend(Record::new(0, 0, effect, list.coverage.calls() as u32, lines).encode());
        input.extend(&list.records);
    }
    input
}

/// What `replay` must print: the stored answers, number and three fields a line.
pub fn replay_output(lists: &[Stored]) -> String {
    lists.iter().map(answers_text).collect()
}

/// Number and three fields of each call of a list, a line each.
pub fn answers_text(list: &Stored) -> String {
    let fields = |line: &str| {
        let words: Vec<&str> = line.split(' ').collect();
        assert_eq!(words.len(), 15);
        words[7..11].join(" ") + "\n"
    };
    list.text.lines().skip(1).map(fields).collect()
}

/// What each list meets, one line a list.
pub fn coverage_text(lists: &[Stored]) -> String {
    lists.iter().map(|list| format!("{}: {} calls, {:?}\n", list.name, list.coverage.calls(), list.coverage)).collect()
}

fn play(plan: &Plan) -> Stored {
    let Plan { name, fan, limit, first: [prepare, effect, lines], .. } = *plan;
    let mut driver = Setup { make: rust, fan, check_every: 1 }.driver(limit, plan.first);
    let mut lister =
        Lister::new(plan.seed, Style { weights: growing_looks(), sizes: Sizes::Small, close: 75, miss: 10 });
    let mut text = format!("make {fan} {limit} {prepare} {effect} {lines}\n");
    let mut records = Vec::new();
    for call in 0..plan.at_end + plan.drawn {
        let record = match call.checked_sub(plan.at_end) {
            None => Record::new(3, 0, NONE, call % 3, call % 2).with_lines((call % 4) as u16),
            Some(drawn) if drawn == plan.reset_at => lister.good(1, &driver.row),
            Some(_) => lister.draw(&driver.row),
        };
        let line = driver.play(record).expect("lib.rs and the row agree");
        text += &line_text(record, &line);
        records.extend(record.encode());
    }
    Stored { name, made: [fan, limit, prepare, effect, lines], text, records, coverage: driver.coverage }
}

/// Lookups in between, and enough changes to fill a small tree.
fn growing_looks() -> [u64; 13] {
    let mut weights = LOOKING;
    for (kind, more) in [(2, 14), (3, 10), (4, 12), (8, 6), (9, 2), (10, 2), (11, 2), (12, 1), (13, 1)] {
        weights[kind - 1] += more;
    }
    weights
}

/// One line: a word, the record's six fields, the number and the first three fields of the answer, and the
/// places of two cursors given and two cursors got.
fn line_text(record: Record, line: &Line) -> String {
    let Record { kind, byte1, lines, a, b, c } = record;
    let [x, y, z, _] = line.answer.fields;
    let word = if line.reply.is_some() { "call" } else { "refused" };
    let places = line.reply.map_or([None; 4], |reply| [reply.given[0], reply.given[1], reply.got[0], reply.got[1]]);
    format!(
        "{word} {kind} {byte1} {lines} {a} {b} {c} {} {x} {y} {z} {}\n",
        line.answer.number,
        places.map(place_text).join(" ")
    )
}

fn place_text(seen: Option<Seen>) -> String {
    seen.map_or("-".into(), |seen| format!("{}.{}", seen.place.leaf, seen.place.slot))
}
