//! The plain row of the planning tree (document 02, CR 11), whose entries have a lowest and a highest length, written from the paper and
//! not from the port. [`choice`] has the definitions themselves, with every choice of lengths tried.

pub mod choice;
pub mod lists;

use crate::state::NONE;

/// The lowest and the highest length of an entry.
#[derive(Clone, Copy, PartialEq, Eq, Debug, Default)]
pub struct Bounds {
    pub low: u32,
    pub high: u32,
}

pub const fn bounds(low: u32, high: u32) -> Bounds {
    Bounds { low, high }
}

impl Bounds {
    pub const NOTHING: Bounds = bounds(0, 0);

    /// "A lowest above a highest".
    pub fn crossed(self) -> bool {
        self.low > self.high
    }
}

#[derive(Clone, Copy, PartialEq, Eq, Debug)]
pub struct Entry {
    pub id: u32,
    pub bounds: Bounds,
}

/// The calls beside make, all by id.
#[derive(Clone, Copy, PartialEq, Eq, Debug)]
pub enum Call {
    Reset { bounds: Bounds },
    Insert { before: u32, bounds: Bounds },
    Split { id: u32, bounds: Bounds, before: bool },
    Set { id: u32, bounds: Bounds },
    Lengths { id: u32 },
    Count,
    Next { id: u32 },
    Earliest { id: u32 },
    Latest { id: u32 },
    FirstAt { position: u32 },
    LastAt { position: u32 },
}

/// How many kinds of calls there are.
pub const KINDS: usize = 11;

impl Call {
    /// The call's place among the kinds, from 0.
    pub fn kind(self) -> usize {
        match self {
            Call::Reset { .. } => 0,
            Call::Insert { .. } => 1,
            Call::Split { .. } => 2,
            Call::Set { .. } => 3,
            Call::Lengths { .. } => 4,
            Call::Count => 5,
            Call::Next { .. } => 6,
            Call::Earliest { .. } => 7,
            Call::Latest { .. } => 8,
            Call::FirstAt { .. } => 9,
            Call::LastAt { .. } => 10,
        }
    }
}

/// The number of an answer, 0 where the call isn't refused, and its values, zeros where there are none.
pub type Said = (u32, [u32; 2]);

#[derive(Clone, PartialEq, Eq, Debug)]
pub struct Row {
    pub limit: u32,
    pub entries: Vec<Entry>,
}

/// The values of an answer, or the number of a refusal.
type Reply = Result<[u32; 2], u32>;

impl Row {
    pub fn make(limit: u32, bounds: Bounds) -> Result<Row, u32> {
        in_order([bounds])?;
        Ok(Row { limit, entries: vec![Entry { id: 0, bounds }] })
    }

    /// Plays a call. A refused one changes nothing and answers its number.
    pub fn answer(&mut self, call: Call) -> Said {
        self.call(call).map_or_else(|number| (number, [0; 2]), |values| (0, values))
    }

    fn call(&mut self, call: Call) -> Reply {
        match call {
            Call::Reset { bounds } => Row::make(self.limit, bounds).map(|row| *self = row).map(|()| [0; 2]),
            Call::Insert { before, bounds } => self.insert(before, bounds),
            Call::Split { id, bounds, before } => self.split(id, bounds, before),
            Call::Set { id, bounds } => self.set(id, bounds),
            Call::Lengths { id } => {
                self.place(id).map(|place| self.entries[place].bounds).map(|own| [own.low, own.high])
            }
            Call::Count => Ok([self.count(), 0]),
            Call::Next { id } => {
                self.place(id).map(|place| [self.entries.get(place + 1).map_or(NONE, |next| next.id), 0])
            }
            Call::Earliest { id } => self.place(id).map(|place| [self.stands(place)[0], 0]),
            Call::Latest { id } => self.place(id).map(|place| [self.stands(place)[1], 0]),
            Call::FirstAt { position } => self.could_hold(position).next().map(|id| [id, 0]).ok_or(5),
            Call::LastAt { position } => self.could_hold(position).last().map(|id| [id, 0]).ok_or(5),
        }
    }

    /// 4, 20, 7, 8.
    fn insert(&mut self, before: u32, bounds: Bounds) -> Reply {
        let place = if before == NONE { self.entries.len() } else { self.place(before)? };
        in_order([bounds])?;
        self.totals_fit(Bounds::NOTHING, bounds)?;
        self.room()?;
        let id = self.count();
        self.entries.insert(place, Entry { id, bounds });
        Ok([id, self.stands(place)[1]])
    }

    /// 4, 6, 17, 20, 8.
    fn split(&mut self, id: u32, moved: Bounds, before: bool) -> Reply {
        let place = self.place(id)?;
        let own = self.entries[place].bounds;
        if moved.low > own.low || moved.high > own.high {
            return Err(6);
        }
        let left = bounds(own.low - moved.low, own.high - moved.high);
        if [moved, left].contains(&Bounds::NOTHING) {
            return Err(17);
        }
        in_order([moved, left])?;
        self.room()?;
        let new = self.count();
        self.entries[place].bounds = left;
        self.entries.insert(if before { place } else { place + 1 }, Entry { id: new, bounds: moved });
        Ok([new, 0])
    }

    /// 4, 20, 7.
    fn set(&mut self, id: u32, bounds: Bounds) -> Reply {
        let place = self.place(id)?;
        in_order([bounds])?;
        self.totals_fit(self.entries[place].bounds, bounds)?;
        self.entries[place].bounds = bounds;
        Ok([0; 2])
    }

    pub fn count(&self) -> u32 {
        self.entries.len() as u32
    }

    pub fn place(&self, id: u32) -> Result<usize, u32> {
        self.entries.iter().position(|entry| entry.id == id).ok_or(4)
    }

    /// The earliest and the latest position at a place of the list: what stands before it is as short as it may be, and as long.
    pub fn stands(&self, place: usize) -> [u32; 2] {
        let before = self.entries[..place].iter();
        let [low, high] = before.fold([0; 2], |[low, high], entry| [low + entry.bounds.low, high + entry.bounds.high]);
        [low, high]
    }

    /// The lowest and the highest total.
    pub fn totals(&self) -> [u32; 2] {
        self.stands(self.entries.len())
    }

    /// The entries that could hold a position, in order. An entry can start wherever between its earliest and its latest position; of
    /// the starts at or below the position the last reaches furthest.
    fn could_hold(&self, position: u32) -> impl Iterator<Item = u32> + '_ {
        let [mut earliest, mut latest] = [0, 0];
        let could = move |entry: &&Entry| {
            let (from, start) = (earliest, latest.min(position));
            earliest += entry.bounds.low;
            latest += entry.bounds.high;
            from <= start && position - start < entry.bounds.high
        };
        self.entries.iter().filter(could).map(|entry| entry.id)
    }

    fn totals_fit(&self, old: Bounds, new: Bounds) -> Result<(), u32> {
        let [low, high] = self.totals();
        let fits = |total: u32, old: u32, new: u32| (total - old).checked_add(new).is_some();
        (fits(low, old.low, new.low) && fits(high, old.high, new.high)).then_some(()).ok_or(7)
    }

    fn room(&self) -> Result<(), u32> {
        (self.count() < self.limit).then_some(()).ok_or(8)
    }
}

fn in_order<const K: usize>(parts: [Bounds; K]) -> Result<(), u32> {
    (!parts.into_iter().any(Bounds::crossed)).then_some(()).ok_or(20)
}
