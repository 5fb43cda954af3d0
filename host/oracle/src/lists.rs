//! Random lists of records, drawn one by one with the row in sight, so that most calls are answered
//! and the others miss by little; and of steps, some of which are handed a cursor of an earlier call.

use crate::cursors::{Held, Source, Step, HANDED};
use crate::random::Random;
use crate::record::{Call, Record};
use crate::row::{Entry, Row};
use crate::state::{LINES, MOST_LINES, NONE};

/// How the lengths of entries are drawn, prepare and effect and, after them, line ends.
#[derive(Clone, Copy, PartialEq, Eq, Debug)]
pub enum Sizes {
    /// 0 to 4; 0 to 3, seldom 65,535.
    Small,
    /// Mostly 0, line ends too.
    Zeros,
    /// Around what is left below 4,294,967,295; often 65,535.
    NearEnd,
}

/// What a list is like.
#[derive(Clone, Copy, Debug)]
pub struct Style {
    /// The weights of kinds 1 to 13.
    pub weights: [u64; 13],
    pub sizes: Sizes,
    /// How often, in percent, the next call is close to the one before.
    pub close: u64,
    /// How often, in percent, a call is made to miss.
    pub miss: u64,
}

/// Inserts and splits above all.
pub const GROWING: [u64; 13] = [0, 30, 30, 30, 4, 6, 20, 4, 4, 4, 2, 1, 1];
/// Every kind often.
pub const EVEN: [u64; 13] = [0, 10, 10, 10, 10, 10, 20, 10, 8, 8, 6, 2, 2];
/// Lookups between changes, for the finger.
pub const LOOKING: [u64; 13] = [0, 8, 6, 14, 6, 6, 60, 2, 2, 2, 1, 1, 1];

/// The weights with a reset now and then.
pub fn with_resets(weights: [u64; 13]) -> [u64; 13] {
    let mut weights = weights.map(|weight| weight * 20);
    weights[0] = 1;
    weights
}

pub struct Lister {
    random: Random,
    style: Style,
    /// A place in the row, from which a close call does not stray far.
    focus: usize,
    view: u8,
}

impl Lister {
    pub fn new(seed: u64, style: Style) -> Lister {
        Lister { random: Random::new(seed), style, focus: 0, view: 0 }
    }

    /// The next record of a list that has brought the row where it is.
    pub fn draw(&mut self, row: &Row) -> Record {
        if self.random.percent(self.style.miss) {
            let entry = self.entry(row);
            return self.missing(entry, row);
        }
        let kind = self.kind();
        self.good(kind, row)
    }

    /// The next step of such a list: a record drawn; or, one time in four, a call that answers a cursor or a call that is handed
    /// one of those held. Half of the lookups are by `char_index_to_entry`, and one call in a hundred that gives lengths gives more
    /// line ends than an entry may have.
    pub fn step(&mut self, row: &Row, held: &Held<u32>) -> Step {
        let step = match self.random.below(8) {
            0 => self.answering(row).into(),
            1 => self.handed(row, held),
            _ => self.draw(row).into(),
        };
        match step.call {
            Some(Call::Lookup { view, index }) if self.random.percent(50) => Call::Select { view, index }.into(),
            Some(call) if call.lengths().is_some() && self.random.percent(1) => {
                let lines = [MOST_LINES + 1, u32::MAX][self.random.below(2) as usize];
                Step { call: Some(call.with_lines(lines)), ..step }
            }
            _ => step,
        }
    }

    /// A call that answers a cursor, each as often as the others.
    fn answering(&mut self, row: &Row) -> Record {
        let kind = [7, 7, 13, 9, 4][self.random.below(5) as usize];
        self.good(kind, row)
    }

    /// A call that is handed one of the last three cursors; it may miss by something else than its cursor.
    fn handed(&mut self, row: &Row, held: &Held<u32>) -> Step {
        let Some((from, id)) = held.last(self.random.below(3) as usize) else { return self.answering(row).into() };
        self.focus = row.place(id).expect("an entry never goes while a cursor to it is held");
        let entry = row.entries[self.focus];
        let record = if self.random.percent(self.style.miss) {
            self.missing(entry, row)
        } else {
            let kind = HANDED[self.random.below(HANDED.len() as u64) as usize];
            self.good_at(kind, entry, row)
        };
        let call = record.call();
        let named = call.is_some_and(|call| call.ids()[0] == Some(id));
        Step { call, kind: record.kind, from: if named { from } else { Source::Id } }
    }

    /// A record of that kind whose fields are good and whose entries exist.
    pub fn good(&mut self, kind: u8, row: &Row) -> Record {
        let entry = self.entry(row);
        self.good_at(kind, entry, row)
    }

    fn good_at(&mut self, kind: u8, entry: Entry, row: &Row) -> Record {
        let before = if self.random.percent(10) { NONE } else { entry.id };
        match kind {
            1 => self.with_lengths(1, 0, row),
            2 | 3 => self.with_lengths(kind, before, row),
            4 => self.split(entry, row),
            5 | 6 => self.with_lengths(kind, entry.id, row),
            7 => self.lookup(row),
            8 => Record::new(8, self.random.below(3) as u8, entry.id, 0, 0),
            10 => Record::new(10, 0, entry.id, self.entry(row).id, 0),
            9 | 11 => Record::new(kind, 0, entry.id, 0, 0),
            _ => Record::new(kind, 0, 0, 0, 0),
        }
    }

    /// A split of the entry at the focus or, where that has no length for two parts, mostly of the next that has. Few are hollow.
    fn split(&mut self, entry: Entry, row: &Row) -> Record {
        let long = |entry: &&Entry| entry.lengths.iter().map(|&own| own as u64).sum::<u64>() > 1;
        let next = row.entries[self.focus..].iter().chain(&row.entries).find(long);
        let Entry { id, lengths } = *next.filter(|_| self.random.percent(90)).unwrap_or(&entry);
        let mut taken = [0; 3];
        for _ in 0..4 {
            taken = lengths.map(|own| self.part_of(own));
            if ![[0; 3], lengths].contains(&taken) {
                break;
            }
        }
        split_off(self.random.below(2) as u8, id, taken)
    }

    fn kind(&mut self) -> u8 {
        let mut left = self.random.below(self.style.weights.iter().sum());
        for (kind, &weight) in (1..).zip(&self.style.weights) {
            if left < weight {
                return kind;
            }
            left -= weight;
        }
        13
    }

    /// An entry close to the focus, or anywhere; the focus moves there.
    fn entry(&mut self, row: &Row) -> Entry {
        let count = row.entries.len();
        self.focus = if self.random.percent(self.style.close) {
            (self.focus + self.random.below(7) as usize).saturating_sub(3).min(count - 1)
        } else {
            self.random.below(count as u64) as usize
        };
        row.entries[self.focus]
    }

    /// A position within a close entry, or at its end; past the view's last entry this is refused.
    fn lookup(&mut self, row: &Row) -> Record {
        if !self.random.percent(self.style.close) {
            self.view = self.random.below(3) as u8;
        }
        let entry = self.entry(row);
        let offset = self.part_of(entry.lengths[self.view as usize]);
        let index = row.before(self.view as usize, self.focus) + offset;
        Record::new(7, self.view, index, 0, 0)
    }

    fn with_lengths(&mut self, kind: u8, a: u32, row: &Row) -> Record {
        let [b, c] = [0, 1].map(|view| self.length(view, row));
        Record::new(kind, 0, a, b, c).with_lines(self.line_ends())
    }

    fn line_ends(&mut self) -> u16 {
        let most = match self.style.sizes {
            Sizes::Small => 2,
            Sizes::Zeros => return self.random.below(12).saturating_sub(9) as u16,
            Sizes::NearEnd => 30,
        };
        if self.random.percent(most) {
            u16::MAX
        } else {
            self.random.below(4) as u16
        }
    }

    fn length(&mut self, view: usize, row: &Row) -> u32 {
        match self.style.sizes {
            Sizes::Small => self.random.below(5) as u32,
            Sizes::Zeros => self.random.below(12).saturating_sub(9) as u32,
            Sizes::NearEnd => {
                let left = u32::MAX - row.total(view);
                match self.random.below(8) {
                    0 => left,
                    1 => left.saturating_add(1),
                    2 => left / 2,
                    3 => self.part_of(left),
                    _ => self.random.below(3) as u32,
                }
            }
        }
    }

    /// From 0 to `whole`, both ends often.
    fn part_of(&mut self, whole: u32) -> u32 {
        match self.random.below(4) {
            0 => 0,
            1 => whole,
            _ => self.random.below(whole as u64 + 1) as u32,
        }
    }

    /// A record that misses: a missing id, the view's end, a split of too much, of nothing or of all, a total past u32, or a bad field.
    fn missing(&mut self, entry: Entry, row: &Row) -> Record {
        let past = row.count() + self.random.below(2) as u32;
        let (flag, view) = (self.random.below(2) as u8, self.random.below(3) as u8);
        let too_much = [0, 1].map(|view| (u32::MAX - row.total(view)).saturating_add(1));
        match self.random.below(15) {
            0 => Record::new([4, 5, 6, 8, 9, 11][self.random.below(6) as usize], 0, past, 0, 0),
            1 => Record::new(2 + flag, 0, past, 1, 1),
            2 => Record::new(10, 0, entry.id, past, 0),
            3 => Record::new(7, view, row.total(view as usize), 0, 0),
            4 => Record::new(4, flag, entry.id, entry.lengths[0].saturating_add(1), entry.lengths[1]),
            5 => Record::new(4, flag, entry.id, 0, entry.lengths[1].saturating_add(1)),
            6 => Record::new(2 + flag, 0, entry.id, too_much[0], 1),
            7 => Record::new(5 + flag, 0, entry.id, 1, too_much[1].saturating_add(entry.lengths[1])),
            8 => Record::new(14 * flag, 0, 0, 0, 0),
            9 => Record::new(4, flag, entry.id, 0, 0).with_lines((entry.lengths[LINES] as u16).saturating_add(1)),
            10 => Record::new(1 + self.random.below(6) as u8, 2, 0, 0, 0),
            11 => Record::new(1 + self.random.below(13) as u8, 3, 0, 0, 0),
            12 => split_off(flag, entry.id, [0; 3]),
            13 => split_off(flag, entry.id, entry.lengths),
            _ => Record::new(7 + self.random.below(7) as u8, 0, 0, 0, 0).with_lines(1 << self.random.below(16)),
        }
    }
}

fn split_off(flag: u8, id: u32, [prepare, effect, lines]: [u32; 3]) -> Record {
    Record::new(4, flag, id, prepare, effect).with_lines(lines as u16)
}
