//! Lists that random ones meet too seldom, on any subject.

use crate::coverage::{Coverage, CursorCoverage};
use crate::cursors::{Giver, Step, GIVERS, HANDED};
use crate::driver::Driver;
use crate::fans::{Make, Setup, FANS};
use crate::record::{Call, Record};
use crate::rust::Subject;
use crate::state::NONE;

fn record(kind: u8, byte1: u8, a: u32, b: u32, c: u32) -> Step {
    Record::new(kind, byte1, a, b, c).into()
}

/// A record with line ends.
fn lined(kind: u8, byte1: u8, a: u32, [b, c, lines]: [u32; 3]) -> Step {
    Record::new(kind, byte1, a, b, c).with_lines(lines as u16).into()
}

fn select(view: usize, index: u32) -> Step {
    Call::Select { view, index }.into()
}

/// The calls of short lists, around two entries.
pub type Alphabet = fn(u32, u32) -> Vec<Step>;

/// Calls of all thirteen kinds and a `char_index_to_entry` around the entries `low` and `high`. Some are refused where the start
/// has no such entry or length; of the splits one moves nothing, and one all that an entry of the start has.
pub fn all_kinds(low: u32, high: u32) -> Vec<Step> {
    vec![
        lined(1, 0, 0, [1, 2, 3]),
        lined(2, 0, NONE, [1, 1, 2]),
        lined(2, 0, low, [0, 2, 0]),
        lined(3, 0, high, [2, 0, 65_535]),
        lined(4, 0, low, [1, 0, 1]),
        lined(4, 1, high, [0, 1, 0]),
        lined(4, 0, high, [0, 0, 0]),
        lined(4, 1, low, [2, 1, 1]),
        lined(5, 0, high, [0, 0, 0]),
        lined(6, 0, low, [3, 1, 2]),
        record(7, 0, 0, 0, 0),
        record(7, 0, high, 0, 0),
        record(7, 1, low, 0, 0),
        record(7, 2, low, 0, 0),
        select(1, high),
        record(8, 0, high, 0, 0),
        record(8, 1, low, 0, 0),
        record(8, 2, high, 0, 0),
        record(9, 0, low, 0, 0),
        record(9, 0, high, 0, 0),
        record(10, 0, low, high, 0),
        record(11, 0, high, 0, 0),
        record(12, 0, 0, 0, 0),
        record(13, 0, 0, 0, 0),
    ]
}

/// The calls that move entries or the finger, fewer of them, for longer lists.
pub fn movers(low: u32, high: u32) -> Vec<Step> {
    vec![
        lined(2, 0, low, [1, 2, 1]),
        lined(3, 0, NONE, [0, 1, 2]),
        lined(4, 0, low, [1, 1, 1]),
        lined(4, 1, high, [1, 0, 0]),
        lined(6, 0, low, [2, 0, 3]),
        record(7, 0, low, 0, 0),
        record(7, 0, high, 0, 0),
        record(7, 1, high, 0, 0),
        record(7, 2, high, 0, 0),
    ]
}

/// How many entries a start has: one; a full leaf; a full root.
fn starts(fan: u32) -> Vec<u32> {
    let full_root = (fan - 1) * (fan / 2) + fan;
    if fan <= 8 {
        vec![1, fan, full_root]
    } else {
        vec![1, fan]
    }
}

/// A tree of so many entries (2, 1, 1), put at the end by records of kind 3, whose finger was set at a prepare position.
/// There is room for four more.
fn started(entries: u32, index: u32, setup: Setup) -> Driver<Box<dyn Subject>> {
    let mut driver = setup.driver(entries + 4, [2, 1, 1]);
    driver.play_all(&vec![lined(3, 0, NONE, [2, 1, 1]); entries as usize - 1]).unwrap();
    driver.play(record(7, 0, index, 0, 0)).unwrap();
    driver.coverage = Coverage::default();
    driver
}

/// Plays every list of exactly `length` calls of the alphabet after that start. Entries and audit are
/// compared at the end of each list.
fn every_list(start: &Driver<Box<dyn Subject>>, alphabet: &[Step], length: u32) -> Coverage {
    let mut met = Coverage::default();
    let lists = alphabet.len().pow(length);
    for list in 0..lists {
        let mut driver = start.clone();
        let mut rest = list;
        for _ in 0..length {
            driver.play(alphabet[rest % alphabet.len()]).unwrap();
            rest /= alphabet.len();
        }
        driver.check().unwrap();
        met += &driver.coverage;
    }
    assert_eq!((met.checks, met.calls()), (lists as u64, lists as u64 * length as u64));
    met
}

/// Every list of 1 to `longest` calls, from each start with the finger in its first half or at its end.
fn every_short_list(alphabet: Alphabet, longest: u32, setup: Setup) -> Coverage {
    let (fan, mut met) = (setup.fan, Coverage::default());
    for entries in starts(fan) {
        let last = entries - 1;
        for index in [last / 2, last * 2] {
            let start = started(entries, index, setup);
            for length in 1..=longest {
                met += &every_list(&start, &alphabet(last / 2, last), length);
            }
        }
    }
    println!("fan {fan}, every list of up to {longest} calls: {} lists, {} calls, {met:?}", met.checks, met.calls());
    assert!(met.leaf_splits > 0 && (fan > 8 || met.root_growths > 0));
    met
}

/// The same at each fan, from 46 starts in all: three at each fan up to 8, two at the others, each with two fingers.
pub fn every_short_list_at_each_fan(alphabet: Alphabet, longest: u32, make: Make) -> Coverage {
    let mut met = Coverage::default();
    for fan in FANS {
        met += &every_short_list(alphabet, longest, Setup { make, fan, check_every: 0 });
    }
    assert!(met.finger_whole() && met.leaf_split_under_finger > 0);
    met
}

/// So many entries (1, 2, 3), put at the end by records of kind 3: their ids are their places.
fn row_of(entries: u32, limit: u32, setup: Setup) -> Driver<Box<dyn Subject>> {
    let mut driver = setup.driver(limit, [1, 2, 3]);
    driver.play_all(&vec![lined(3, 0, NONE, [1, 2, 3]); entries as usize - 1]).unwrap();
    driver
}

/// Lookup, then a split or insert that splits the very leaf, then lookups on both sides of it. A full
/// leaf of entries (1, 2, 3); the finger at each slot, the change before or within each slot, every
/// kind of change, each view, and then lookups down and up the whole row.
pub fn around_a_split(setup: Setup) -> Coverage {
    let (fan, mut met) = (setup.fan, Coverage::default());
    let full = row_of(fan, 2 * fan, setup);
    for (looked, changed) in (0..fan * 3).flat_map(|looked| (0..=fan).map(move |changed| (looked, changed))) {
        for (kind, flag) in [(2, 0), (3, 0), (4, 0), (4, 1)] {
            let view = (looked % 3) as u8;
            let mut driver = full.clone();
            driver.play(record(7, view, (looked / 3) * (1 + view as u32), 0, 0)).unwrap();
            let at = if changed == fan { NONE } else { changed };
            driver.play(lined(kind, flag, at, [1, 1, 1])).unwrap();
            for index in (0..3 * fan).rev().step_by(3).chain((0..3 * fan).step_by(1 + fan as usize / 16)) {
                driver.play(record(7, view, index, 0, 0)).unwrap();
            }
            driver.check().unwrap();
            met += &driver.coverage;
        }
    }
    println!(
        "around a split, fan {fan}: {} leaf splits under the finger in {} calls",
        met.leaf_split_under_finger,
        met.calls()
    );
    assert!(met.leaf_split_under_finger >= 6 * fan as u64);
    met
}

/// Each call that answers a cursor, at each slot of a leaf that is full or lacks one entry, and then each kind of call that is handed
/// it: some cursors come out of a leaf split, others go into one. Entries (1, 2, 3); lookups on both sides follow.
pub fn handed_on(setup: Setup) -> CursorCoverage {
    let (fan, mut met, mut cursors) = (setup.fan, Coverage::default(), CursorCoverage::default());
    for (entries, giver) in [fan - 1, fan].into_iter().flat_map(|entries| GIVERS.map(|giver| (entries, giver))) {
        let row = row_of(entries, entries + 2, setup);
        for (slot, kind) in (0..entries).flat_map(|slot| HANDED.map(|kind| (slot, kind))) {
            let Some(giving) = giving(giver, slot) else { continue };
            let (mut driver, flag, view) = (row.clone(), (slot % 2) as u8, (slot % 3) as u8);
            driver.play(giving).unwrap();
            let (from, id) = driver.held.last((giver == Giver::SplitFirst) as usize).expect("a cursor was answered");
            let byte1 = [(4, flag), (8, view)].into_iter().find(|(of, _)| *of == kind).map_or(0, |(_, byte1)| byte1);
            let more = (kind <= 6) as u32;
            driver.play(Step { from, ..lined(kind, byte1, id, [0, more, more]) }).unwrap();
            for index in [slot, 0, entries - 1] {
                driver.play(record(7, view, index, 0, 0)).unwrap();
            }
            driver.check().unwrap();
            met += &driver.coverage;
            cursors += &driver.cursors;
        }
    }
    println!("handed on, fan {fan}: {} calls, {cursors:?}", met.calls());
    assert!(cursors.whole() && met.leaf_split_under_finger > 0);
    cursors
}

/// The call that answers the cursor of that slot in a row of entries (1, 2, 3) whose ids are their places. `first` has it for one slot,
/// `next` for all others.
pub fn giving(giver: Giver, slot: u32) -> Option<Step> {
    let view = slot % 3;
    match giver {
        Giver::Locate => Some(record(7, view as u8, slot * (1 + view), 0, 0)),
        Giver::CharIndexToEntry => Some(select(view as usize, slot * (1 + view))),
        Giver::First => (slot == 0).then(|| record(13, 0, 0, 0, 0)),
        Giver::Next => slot.checked_sub(1).map(|before| record(9, 0, before, 0, 0)),
        Giver::SplitFirst | Giver::SplitSecond => Some(lined(4, (slot % 2) as u8, slot, [0, 1, 2])),
    }
}

/// Fills a tree to its limit, at most 200, at the end, at the front, around the middle or by splits that move a line end alone; one more
/// is 8.
pub fn fill(limit: u32, way: u8, setup: Setup) -> Coverage {
    let mut driver = setup.driver(limit, [200; 3]);
    for _ in 0..limit {
        let count = driver.row.count();
        let id = |place: u32| driver.row.entries[place as usize].id;
        let next = match way {
            0 => lined(2, 0, NONE, [1, 1, 1]),
            1 => lined(3, 0, id(0), [1, 1, 2]),
            2 => lined(3, 0, id(count / 2), [1, 1, 65_535]),
            _ => lined(4, (count % 3 != 0) as u8, 0, [0, 0, 1]),
        };
        driver.play(next).unwrap();
    }
    let met = driver.coverage;
    assert_eq!((met.answered(), met.calls()), (limit as u64 - 1, limit as u64), "limit {limit}, way {way}");
    assert_eq!(met.refused[8], 1);
    met
}

/// Fills a tree at the end only, so that every node but the last of its level is left half full, with a comparison now and then;
/// one more is 8.
pub fn deep(limit: u32, setup: Setup) -> Coverage {
    let mut driver = setup.driver(limit, [1; 3]);
    while driver.row.count() < limit {
        let last = driver.row.count() - 1;
        driver.play(lined(3, 0, NONE, [last % 3, 1, last % 5])).unwrap();
        if last.is_multiple_of(16) {
            driver.play(record(10, 0, last / 2, last, 0)).unwrap();
        }
    }
    driver.play(record(3, 0, NONE, 0, 0)).unwrap();
    driver.check().unwrap();
    let met = driver.coverage;
    println!("limit {limit}, filled at the end: {} calls, {} levels", met.calls(), met.most_levels);
    assert_eq!(met.refused[8], 1);
    met
}
