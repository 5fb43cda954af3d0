//! Random lists of the planning tree's calls, drawn one by one with the row in sight, so that most are answered and the others miss by
//! little.

use super::{bounds, Bounds, Call, Entry, Row, KINDS};
use crate::lists::Sizes;
use crate::random::Random;
use crate::state::NONE;

/// What a list is like.
#[derive(Clone, Copy, Debug)]
pub struct Style {
    /// The weights of the kinds, in the order of `Call::kind`.
    pub weights: [u64; KINDS],
    pub sizes: Sizes,
    /// How often, in percent, the next call is close to the one before.
    pub close: u64,
    /// How often, in percent, a call is made to miss.
    pub miss: u64,
}

/// Inserts and splits above all, a reset now and then.
pub const GROWING: [u64; KINDS] = [1, 600, 600, 80, 40, 10, 40, 40, 40, 100, 100];
/// Every kind often.
pub const EVEN: [u64; KINDS] = [1, 60, 60, 60, 40, 20, 40, 40, 40, 80, 80];
/// Lookups between changes, for the finger.
pub const LOOKING: [u64; KINDS] = [1, 40, 40, 60, 4, 2, 4, 4, 4, 300, 300];

pub struct Lister {
    random: Random,
    style: Style,
    /// A place in the row, from which a close call does not stray far.
    focus: usize,
}

impl Lister {
    pub fn new(seed: u64, style: Style) -> Lister {
        Lister { random: Random::new(seed), style, focus: 0 }
    }

    /// The next call of a list that has brought the row where it is.
    pub fn draw(&mut self, row: &Row) -> Call {
        let entry = self.entry(row);
        if self.random.percent(self.style.miss) {
            return self.missing(entry, row);
        }
        let before = if self.random.percent(10) { NONE } else { entry.id };
        let id = entry.id;
        match self.kind() {
            0 => Call::Reset { bounds: self.bounds(&Row { limit: 1, entries: Vec::new() }) },
            1 => Call::Insert { before, bounds: self.bounds(row) },
            2 => self.split(row),
            3 => Call::Set { id, bounds: self.bounds(row) },
            4 => Call::Lengths { id },
            5 => Call::Count,
            6 => Call::Next { id },
            7 => Call::Earliest { id },
            8 => Call::Latest { id },
            9 => Call::FirstAt { position: self.position(row) },
            _ => Call::LastAt { position: self.position(row) },
        }
    }

    fn kind(&mut self) -> usize {
        let mut left = self.random.below(self.style.weights.iter().sum());
        self.style
            .weights
            .iter()
            .position(|&weight| {
                let taken = left < weight;
                left = left.saturating_sub(weight);
                taken
            })
            .expect("it is below their sum")
    }

    /// An entry close to the focus, or anywhere; the focus moves there.
    fn entry(&mut self, row: &Row) -> Entry {
        let count = row.entries.len();
        self.focus = if self.random.percent(self.style.close) {
            (self.focus + self.random.below(7) as usize).saturating_sub(3).min(count - 1)
        } else {
            self.random.below(count as u64) as usize
        };
        row.entries[self.focus]
    }

    /// A position that a close entry may fill, or at the end of what it may.
    fn position(&mut self, row: &Row) -> u32 {
        let [earliest, latest] = row.stands(self.focus);
        self.between(earliest, latest.saturating_add(row.entries[self.focus].bounds.high))
    }

    /// Bounds in order.
    fn bounds(&mut self, row: &Row) -> Bounds {
        let [low, high] = row.totals().map(|total| self.length(total));
        bounds(low.min(high), low.max(high))
    }

    fn length(&mut self, total: u32) -> u32 {
        match self.style.sizes {
            Sizes::Small => self.random.below(5) as u32,
            Sizes::Zeros => self.random.below(12).saturating_sub(9) as u32,
            Sizes::NearEnd => {
                let left = u32::MAX - total;
                match self.random.below(8) {
                    0 => left,
                    1 => left.saturating_add(1),
                    2 => left / 2,
                    3 => self.between(0, left),
                    _ => self.random.below(3) as u32,
                }
            }
        }
    }

    /// From one number to another, both ends often.
    fn between(&mut self, from: u32, to: u32) -> u32 {
        match self.random.below(4) {
            0 => from,
            1 => to,
            _ => from + self.random.below((to - from) as u64 + 1) as u32,
        }
    }

    /// A split of a close entry that can be parted, or mostly of the next that can; both parts are mostly in order, few are hollow.
    fn split(&mut self, row: &Row) -> Call {
        let long = |entry: &&Entry| entry.bounds.high > 1;
        let next = row.entries[self.focus..].iter().chain(&row.entries).find(long);
        let Entry { id, bounds: own } = *next.filter(|_| self.random.percent(90)).unwrap_or(&row.entries[self.focus]);
        let mut moved = Bounds::NOTHING;
        for _ in 0..6 {
            moved = bounds(self.between(0, own.low), self.between(0, own.high));
            let left = bounds(own.low - moved.low, own.high - moved.high);
            if ![moved, left].iter().any(|part| part.crossed() || *part == Bounds::NOTHING) {
                break;
            }
        }
        Call::Split { id, bounds: moved, before: self.random.percent(50) }
    }

    /// A call that misses: a missing id, the end, a split of too much, of nothing or of all, a total past u32, and a lowest above a
    /// highest by itself, with a total past u32, in the part given and in the part left.
    fn missing(&mut self, Entry { id, bounds: own }: Entry, row: &Row) -> Call {
        let (past, before) = (row.count() + self.random.below(2) as u32, self.random.percent(50));
        let [low, high] = row.totals();
        let too_high = (u32::MAX - high).saturating_add(1);
        let split = |low, high| Call::Split { id, bounds: bounds(low, high), before };
        match self.random.below(17) {
            0 => Call::Insert { before: past, bounds: bounds(1, 1) },
            1 => Call::Split { id: past, bounds: bounds(1, 0), before },
            2 => Call::Set { id: past, bounds: bounds(1, 0) },
            3 => [Call::Lengths { id: past }, Call::Next { id: past }][before as usize],
            4 => [Call::Earliest { id: past }, Call::Latest { id: past }][before as usize],
            5 => Call::FirstAt { position: self.between(high, u32::MAX) },
            6 => Call::LastAt { position: self.between(high, u32::MAX) },
            7 => split(own.low.saturating_add(1), own.high),
            8 => split(0, own.high.saturating_add(1)),
            9 => split(0, 0),
            10 => split(own.low, own.high),
            11 => split(own.low, own.low.saturating_sub(1)),
            12 => split(0, (own.high - own.low).saturating_add(1)),
            13 => Call::Insert { before: id, bounds: bounds(self.random.below(3) as u32, too_high.max(2)) },
            14 => Call::Set { id, bounds: bounds(1, too_high.saturating_add(own.high).max(1)) },
            15 => [Call::Insert { before: id, bounds: bounds(3, 2) }, Call::Set { id, bounds: bounds(1, 0) }]
                [before as usize],
            _ => {
                let crossed = bounds((u32::MAX - low).saturating_add(1), (u32::MAX - low).min(u32::MAX - high));
                let crossed = if before { crossed } else { bounds(u32::MAX, u32::MAX - 1) };
                [
                    Call::Insert { before: id, bounds: crossed },
                    Call::Set { id, bounds: crossed },
                    Call::Reset { bounds: crossed },
                ][self.random.below(3) as usize]
            }
        }
    }
}
