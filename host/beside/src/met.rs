//! What lists on any cursors have met, counted, so that a test can assert that they met what it claims.

use crate::any_cursor::Drawn;
use crate::cursors::{entry_at, fault, tested, GIVING, OTHERS, TAKING, VIEWED};
use crate::exports::{Export, Given};
use oracle::state::State;
use std::collections::BTreeMap;
use std::fmt;

/// The numbers of a cursor: 0 where it is current.
pub const FAULTS: [u32; 4] = [0, 3, 13, 14];

/// Cursors whose number might be taken for another.
#[derive(Clone, Copy, PartialEq, Eq, PartialOrd, Ord, Debug)]
pub enum Odd {
    /// Refused by 3, unchanged, and its slot still holds the entry for which it was issued.
    OldButRight,
    /// Refused by 3, and its leaf or slot is bad as well.
    StampFirst,
    /// Changed since it was issued, and yet current.
    RightByChance,
    /// Refused by 3, unchanged, from before a reset: its slot is in use, and the sheet has as many entries as the one of its issue had.
    LastSheet,
}

/// Those that every list of some length meets.
const ODD: [Odd; 3] = [Odd::OldButRight, Odd::StampFirst, Odd::RightByChance];

/// Something that a list can meet.
#[derive(Clone, Copy, PartialEq, Eq, PartialOrd, Ord, Debug)]
pub enum Thing {
    /// A call that tests cursors, and its number.
    Taking(Export, u32),
    /// A call that tests none, insert at the end among them, and its number.
    Other(Export, u32),
    /// A comparison, by the numbers of its two cursors.
    Pair(u32, u32),
    /// A cursor of a call, the first or, 1, the second.
    Odd(Export, usize, Odd),
    /// A call that takes a view, answered in that view.
    Viewed(Export, u32),
}

#[derive(Clone, Default, PartialEq, Eq, Debug)]
pub struct Met {
    pub calls: u64,
    pub most_levels: u32,
    /// How many cursors from before a reset were tested, as they were issued.
    pub before_reset: u64,
    pub things: BTreeMap<Thing, u64>,
}

impl Met {
    /// Notes a call with lib.rs's state before it, after so many resets.
    pub fn note(&mut self, state: &State, export: Export, given: &Given, drawn: [Drawn; 2], resets: u64, number: u32) {
        self.calls += 1;
        self.most_levels = self.most_levels.max(state.head.levels);
        let cursors = tested(export, given);
        self.count(if cursors.is_empty() { Thing::Other(export, number) } else { Thing::Taking(export, number) });
        if let [first, second] = cursors[..] {
            self.count(Thing::Pair(fault(state, first), fault(state, second)));
        }
        if number == 0 && VIEWED.contains(&export) {
            self.count(Thing::Viewed(export, given.view));
        }
        for (place, drawn) in drawn.into_iter().enumerate().take(cursors.len()) {
            self.before_reset += drawn.issued.is_some_and(|issued| issued.resets < resets) as u64;
            if let Some(odd) = odd(state, drawn, resets) {
                self.count(Thing::Odd(export, place, odd));
            }
        }
    }

    fn count(&mut self, thing: Thing) {
        *self.things.entry(thing).or_default() += 1;
    }

    /// How often a thing was met.
    pub fn of(&self, thing: Thing) -> u64 {
        self.things.get(&thing).copied().unwrap_or(0)
    }

    /// Whether everything needed was met.
    pub fn whole(&self) -> bool {
        needed().into_iter().all(|thing| self.of(thing) > 0)
    }
}

fn odd(state: &State, Drawn { at, issued }: Drawn, resets: u64) -> Option<Odd> {
    let there = entry_at(state, at);
    let last_sheet = issued.is_some_and(|at| at.resets < resets && at.entries == state.head.entry_count);
    match fault(state, at) {
        3 if there.is_none() => Some(Odd::StampFirst),
        3 if last_sheet => Some(Odd::LastSheet),
        3 if there == issued.map(|at| at.entry) => Some(Odd::OldButRight),
        0 if issued.is_none() => Some(Odd::RightByChance),
        _ => None,
    }
}

/// Every call that takes cursors with one from the last sheet in every place, which lists of small sheets meet.
pub fn across_resets() -> Vec<Thing> {
    let places = |export| if export == Export::Cmp { 2 } else { 1 };
    let odd = |export| (0..places(export)).map(move |place| Thing::Odd(export, place, Odd::LastSheet));
    TAKING.into_iter().flat_map(odd).collect()
}

/// Every call that takes cursors with every number of a cursor and with every odd cursor in every place; comparisons of every two
/// numbers; the other calls, answered; lookups and ranks in every view; too many line ends in every call that gives lengths and takes
/// a cursor; a hollow split.
pub fn needed() -> Vec<Thing> {
    let mut needed = Vec::new();
    for export in TAKING {
        needed.extend(FAULTS.map(|number| Thing::Taking(export, number)));
        let places = if export == Export::Cmp { 2 } else { 1 };
        needed.extend((0..places).flat_map(|place| ODD.map(|odd| Thing::Odd(export, place, odd))));
    }
    needed.extend(FAULTS.into_iter().flat_map(|first| FAULTS.map(|second| Thing::Pair(first, second))));
    needed.extend(VIEWED.into_iter().flat_map(|export| (0..3).map(move |view| Thing::Viewed(export, view))));
    let giving = GIVING.into_iter().filter(|export| TAKING.contains(export));
    needed.extend(giving.map(|export| Thing::Taking(export, 10)));
    needed.push(Thing::Taking(Export::SplitEntry, 17));
    needed.extend(OTHERS.into_iter().chain([Export::Insert]).map(|export| Thing::Other(export, 0)));
    needed
}

impl std::ops::AddAssign<&Met> for Met {
    fn add_assign(&mut self, other: &Met) {
        self.calls += other.calls;
        self.most_levels = self.most_levels.max(other.most_levels);
        self.before_reset += other.before_reset;
        for (&thing, count) in &other.things {
            *self.things.entry(thing).or_default() += count;
        }
    }
}

/// A line for each call that takes cursors: how often each number was answered, and each odd cursor met; one for the other calls, one
/// for the views, and one for the pairs of numbers that comparisons met.
impl fmt::Display for Met {
    fn fmt(&self, f: &mut fmt::Formatter<'_>) -> fmt::Result {
        let Met { calls, most_levels, before_reset, .. } = self;
        writeln!(f, "{calls} calls, up to {most_levels} levels, {before_reset} cursors from before a reset")?;
        for export in TAKING {
            write!(f, "  {export:?}:")?;
            for (thing, count) in &self.things {
                match thing {
                    Thing::Taking(of, number) if *of == export => write!(f, " {number}: {count},")?,
                    Thing::Odd(of, place, odd) if *of == export => write!(f, " {odd:?} {place}: {count},")?,
                    _ => {}
                }
            }
            writeln!(f)?;
        }
        write!(f, "  without a cursor:")?;
        for (thing, count) in &self.things {
            if let Thing::Other(export, number) = thing {
                write!(f, " {export:?} {number}: {count},")?;
            }
        }
        write!(f, "\n  by view:")?;
        for (thing, count) in &self.things {
            if let Thing::Viewed(export, view) = thing {
                write!(f, " {export:?} {view}: {count},")?;
            }
        }
        write!(f, "\n  pairs:")?;
        for (thing, count) in &self.things {
            if let Thing::Pair(first, second) = thing {
                write!(f, " {first} {second}: {count},")?;
            }
        }
        writeln!(f)
    }
}
