//! Cursors that calls answer, kept so that later calls can be handed them.

use crate::record::{Call, Record};

/// The calls that answer a cursor; `split_entry` answers two.
#[derive(Clone, Copy, PartialEq, Eq, PartialOrd, Ord, Debug)]
pub enum Giver {
    Locate,
    CharIndexToEntry,
    First,
    Next,
    SplitFirst,
    SplitSecond,
}

pub const GIVERS: [Giver; 6] =
    [Giver::Locate, Giver::CharIndexToEntry, Giver::First, Giver::Next, Giver::SplitFirst, Giver::SplitSecond];

/// The kinds of call that are handed cursors: those that name an entry.
pub const HANDED: [u8; 9] = [2, 3, 4, 5, 6, 8, 9, 10, 11];

/// Where a call gets the cursor of the entry that it names; the second entry of a comparison is always named by id.
#[derive(Clone, Copy, PartialEq, Eq, Debug)]
pub enum Source {
    /// From `cursor(id)`.
    Id,
    /// From an earlier call: the cursor at that place among those held.
    Held(usize),
}

/// The cursors that calls have answered and that are still current, the oldest first, each with the call that answered it.
/// A tree holds the cursors themselves, a driver the ids of their entries.
#[derive(Clone, PartialEq, Eq, Debug)]
pub struct Held<T>(Vec<(Giver, T)>);

impl<T> Default for Held<T> {
    fn default() -> Self {
        Held(Vec::new())
    }
}

impl<T: Copy> Held<T> {
    /// Keeps what a call has answered. An entry more, or a reset, leaves no earlier cursor current.
    pub fn keep(&mut self, call: Call, got: [Option<T>; 2]) {
        if matches!(call, Call::Reset { .. } | Call::Insert { .. } | Call::Split { .. }) {
            self.0.clear();
        }
        for (giver, got) in call.givers().into_iter().zip(got) {
            self.0.extend(giver.zip(got));
        }
    }

    /// What a call from that source is handed; nothing where it goes by id.
    pub fn handed(&self, from: Source) -> Option<(Giver, T)> {
        match from {
            Source::Id => None,
            Source::Held(place) => Some(self.0[place]),
        }
    }

    /// Puts something else in the place of what is held, for the tests that must fail.
    pub fn spoil(&mut self, spoil: impl Fn(&mut T)) {
        self.0.iter_mut().for_each(|(_, held)| spoil(held));
    }

    /// The cursor answered last, or so many before it, as a source; nothing where fewer are held.
    pub fn last(&self, before: usize) -> Option<(Source, T)> {
        let place = self.0.len().checked_sub(1 + before)?;
        Some((Source::Held(place), self.0[place].1))
    }
}

/// One call of a list: what is asked for, nothing where a field of its record is bad, by a record of which kind, and where its
/// cursor comes from.
#[derive(Clone, Copy, PartialEq, Eq, Debug)]
pub struct Step {
    pub call: Option<Call>,
    pub kind: u8,
    pub from: Source,
}

impl From<Call> for Step {
    fn from(call: Call) -> Step {
        Step { call: Some(call), kind: call.kind(), from: Source::Id }
    }
}

impl From<Record> for Step {
    fn from(record: Record) -> Step {
        Step { call: record.call(), kind: record.kind, from: Source::Id }
    }
}
