//! What a run has met, counted, so that a test can assert that it met what it claims.

use crate::cursors::{Giver, GIVERS, HANDED};
use crate::record::Call;
use crate::state::{Finger, Head, LINES};
use std::collections::BTreeMap;

#[derive(Clone, Default, PartialEq, Eq, Debug)]
pub struct Coverage {
    /// Calls answered, by kind.
    pub kinds: [u64; 14],
    /// Calls refused by the row, by number.
    pub refused: [u64; 18],
    pub leaf_splits: u64,
    /// Splits of an inner node below the root, and of the root.
    pub inner_splits: u64,
    pub root_growths: u64,
    pub most_levels: u32,
    /// Lookups that the finger served, by where it had to go within its leaf.
    pub served_forwards: u64,
    pub served_backwards: u64,
    pub served_in_place: u64,
    /// Lookups that went down from the root past a finger of the same view that did not hold the index.
    pub passed_over: u64,
    /// What changes did to the finger.
    pub dropped: u64,
    pub rewound: u64,
    pub stayed: u64,
    /// Changes at an entry of the finger's own leaf that split this leaf.
    pub leaf_split_under_finger: u64,
    /// Lookups and ranks answered, and lookups that the finger served, by view.
    pub looked: [u64; 3],
    pub ranked: [u64; 3],
    pub served: [u64; 3],
    /// The most slots that a lookup examined, by the levels of its tree.
    pub examined: BTreeMap<u32, u32>,
    /// Splits refused by 17, by what has no length: the part that would be moved, the part left behind.
    pub hollow: [u64; 2],
    /// Splits answered, by what has line ends and no other length: the part moved, the part left behind. For lib.rs it has none.
    pub lines_alone: [u64; 2],
    /// Full comparisons of entries and audit.
    pub checks: u64,
}

/// What a run has met of cursors handed from call to call.
#[derive(Clone, Default, PartialEq, Eq, Debug)]
pub struct CursorCoverage {
    /// Cursors answered, by call.
    pub answered: BTreeMap<Giver, u64>,
    /// Calls answered that were handed a cursor, by the call that had answered it and by kind.
    pub handed: BTreeMap<Giver, [u64; 14]>,
    /// Calls refused that were handed one.
    pub refused: u64,
}

impl Coverage {
    pub fn answered(&self) -> u64 {
        self.kinds.iter().sum()
    }

    pub fn calls(&self) -> u64 {
        self.answered() + self.refused.iter().sum::<u64>()
    }

    pub fn all_kinds(&self) -> bool {
        self.kinds[1..].iter().all(|&count| count > 0)
    }

    /// Whether the finger served both ways and was passed over, dropped, rewound and left alone.
    pub fn finger_whole(&self) -> bool {
        let ways =
            [self.served_forwards, self.served_backwards, self.passed_over, self.dropped, self.rewound, self.stayed];
        ways.iter().all(|&count| count > 0)
    }

    /// Whether every view was looked up, ranked in, and looked up by the finger.
    pub fn every_view(&self) -> bool {
        [self.looked, self.ranked, self.served].as_flattened().iter().all(|&count| count > 0)
    }

    /// Whether splits were tried that move nothing and that leave nothing, and such that move or leave line ends alone.
    pub fn every_split(&self) -> bool {
        [self.hollow, self.lines_alone].as_flattened().iter().all(|&count| count > 0)
    }

    /// Notes the parts of a split that is answered, or refused by 17.
    pub fn note_split(&mut self, parts: [[u32; 3]; 2], answered: bool) {
        for (part, lengths) in parts.into_iter().enumerate() {
            self.hollow[part] += (!answered && lengths == [0; 3]) as u64;
            self.lines_alone[part] += (answered && lengths[..LINES] == [0; 2]) as u64;
        }
    }

    /// Notes an answered call and the kind of its record, with the heads before and after it and the leaf of the entry it names.
    pub fn note(&mut self, (call, kind): (Call, u8), leaf: Option<u32>, before: &Head, after: &Head) {
        self.kinds[kind as usize] += 1;
        self.most_levels = self.most_levels.max(after.levels);
        match call {
            Call::Reset { .. } => {}
            Call::Lookup { view, index } | Call::Select { view, index } => {
                self.looked[view] += 1;
                self.note_lookup(view as u32, index, before.finger, after.finger)
            }
            Call::Rank { view, .. } => self.ranked[view] += 1,
            _ => self.note_change(kind, leaf, before, after),
        }
    }

    /// Notes how many slots an answered lookup examined in a tree of so many levels.
    pub fn note_examined(&mut self, levels: u32, slots: u32) {
        let most = self.examined.entry(levels).or_default();
        *most = slots.max(*most);
    }

    fn note_lookup(&mut self, view: u32, index: u32, before: Option<Finger>, after: Option<Finger>) {
        let (Some(before), Some(after)) = (before, after) else { return };
        if before.view != view || index < before.start {
            return;
        }
        let counter = if before.leaf != after.leaf {
            &mut self.passed_over
        } else {
            self.served[view as usize] += 1;
            match after.slot.cmp(&before.slot) {
                std::cmp::Ordering::Greater => &mut self.served_forwards,
                std::cmp::Ordering::Less => &mut self.served_backwards,
                std::cmp::Ordering::Equal => &mut self.served_in_place,
            }
        };
        *counter += 1;
    }

    fn note_change(&mut self, kind: u8, leaf: Option<u32>, before: &Head, after: &Head) {
        let leaf_split = after.leaf_count > before.leaf_count;
        let grown = after.levels - before.levels;
        self.leaf_splits += leaf_split as u64;
        self.root_growths += grown as u64;
        self.inner_splits += (after.inner_count - before.inner_count - grown) as u64;
        let Some(finger) = before.finger.filter(|_| kind <= 6) else { return };
        match after.finger {
            None => self.dropped += 1,
            Some(now) if now == finger => self.stayed += 1,
            Some(_) => self.rewound += 1,
        }
        self.leaf_split_under_finger += (leaf_split && leaf == Some(finger.leaf)) as u64;
    }
}

impl std::ops::AddAssign<&Coverage> for Coverage {
    fn add_assign(&mut self, other: &Coverage) {
        add(&mut self.kinds, &other.kinds);
        add(&mut self.refused, &other.refused);
        add(&mut self.looked, &other.looked);
        add(&mut self.ranked, &other.ranked);
        add(&mut self.served, &other.served);
        add(&mut self.hollow, &other.hollow);
        add(&mut self.lines_alone, &other.lines_alone);
        other.examined.iter().for_each(|(&levels, &slots)| self.note_examined(levels, slots));
        self.leaf_splits += other.leaf_splits;
        self.inner_splits += other.inner_splits;
        self.root_growths += other.root_growths;
        self.most_levels = self.most_levels.max(other.most_levels);
        self.served_forwards += other.served_forwards;
        self.served_backwards += other.served_backwards;
        self.served_in_place += other.served_in_place;
        self.passed_over += other.passed_over;
        self.dropped += other.dropped;
        self.rewound += other.rewound;
        self.stayed += other.stayed;
        self.leaf_split_under_finger += other.leaf_split_under_finger;
        self.checks += other.checks;
    }
}

impl CursorCoverage {
    /// Whether every kind of call that takes a cursor was handed one of every call that answers one.
    pub fn whole(&self) -> bool {
        let whole = |kinds: &[u64; 14]| HANDED.iter().all(|&kind| kinds[kind as usize] > 0);
        GIVERS.iter().all(|giver| self.handed.get(giver).is_some_and(whole))
    }

    /// Notes an answered call: the call that its cursor was from, where it was handed one, and the cursors that it answered.
    pub fn note(&mut self, (call, kind): (Call, u8), from: Option<Giver>, got: [Option<u32>; 2]) {
        if let Some(giver) = from {
            self.handed.entry(giver).or_default()[kind as usize] += 1;
        }
        for giver in call.givers().into_iter().zip(got).filter_map(|(giver, got)| got.and(giver)) {
            *self.answered.entry(giver).or_default() += 1;
        }
    }
}

impl std::ops::AddAssign<&CursorCoverage> for CursorCoverage {
    fn add_assign(&mut self, other: &CursorCoverage) {
        for (&giver, count) in &other.answered {
            *self.answered.entry(giver).or_default() += count;
        }
        for (&giver, kinds) in &other.handed {
            add(self.handed.entry(giver).or_default(), kinds);
        }
        self.refused += other.refused;
    }
}

fn add(sums: &mut [u64], counts: &[u64]) {
    for (sum, count) in sums.iter_mut().zip(counts) {
        *sum += count;
    }
}
