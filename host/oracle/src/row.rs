//! The plain row of document 01, with document 02's line ends, its refusal of hollow splits, and its seats, written from the papers and
//! not from lib.rs.

use crate::record::{Answer, Call, Record};
use crate::seats::Seats;
use crate::state::{EFFECT, LINES, MOST_LINES, NONE, PREPARE};

#[derive(Clone, Copy, PartialEq, Eq, Debug)]
pub struct Entry {
    pub id: u32,
    /// Prepare length, effect length, line ends.
    pub lengths: [u32; 3],
}

/// A limit, a list of entries, and the seats to which they are charged, where there are any.
#[derive(Clone, PartialEq, Eq, Debug)]
pub struct Row {
    pub limit: u32,
    pub entries: Vec<Entry>,
    pub seats: Option<Seats>,
}

/// The fields of an answer, or the number of a refusal.
type Reply = Result<[u32; 4], u8>;

impl Row {
    pub fn make(limit: u32, lengths: [u32; 3]) -> Row {
        Row { limit, entries: vec![Entry { id: 0, lengths }], seats: None }
    }

    /// A row with seats; 19 where the shares sum too high.
    pub fn seated(limit: u32, lengths: [u32; 3], shares: [u32; 8]) -> Result<Row, u8> {
        let seats = Some(Seats::new(shares)).filter(|seats| seats.within(limit)).ok_or(19)?;
        Ok(Row { seats: Some(seats), ..Row::make(limit, lengths) })
    }

    /// Plays one record. A refused call changes nothing and answers its number.
    pub fn play(&mut self, record: &Record) -> Answer {
        self.answer(record.call())
    }

    /// Plays the call of a record; a record with a bad field asks for none. No record names a seat.
    pub fn answer(&mut self, call: Option<Call>) -> Answer {
        self.answer_for(None, call)
    }

    /// Plays a call of which an insert or split names that seat, or none.
    pub fn answer_for(&mut self, seat: Option<u32>, call: Option<Call>) -> Answer {
        match call.ok_or(10).and_then(|call| self.call(seat, call)) {
            Ok(fields) => Answer { number: 0, fields },
            Err(number) => Answer { number, fields: [0; 4] },
        }
    }

    fn call(&mut self, seat: Option<u32>, call: Call) -> Reply {
        if call.lengths().is_some_and(|lengths| lengths[LINES] > MOST_LINES) {
            return Err(10);
        }
        match call {
            Call::Reset { lengths } => self.reset(lengths),
            Call::Insert { before, lengths } => self.insert(self.named(seat)?, before, lengths),
            Call::Split { id, lengths, before } => self.split(self.named(seat)?, id, lengths, before),
            Call::Set { id, lengths } => self.update(id, lengths).map(|_| [0; 4]),
            Call::Update { id, lengths } => self.update(id, lengths),
            Call::Lookup { view, index } => self.lookup(view, index),
            Call::Select { view, index } => self.lookup(view, index).map(|[id, offset, ..]| [id, offset, 0, 0]),
            Call::Rank { view, id } => Ok([self.before(view, self.place(id)?), 0, 0, 0]),
            Call::Next { id } => Ok([self.next(self.place(id)?), 0, 0, 0]),
            Call::Compare { first, second } => self.compare(first, second),
            Call::Lengths { id } => {
                self.place(id).map(|place| self.entries[place].lengths).map(|[p, e, l]| [p, e, l, 0])
            }
            Call::Count => Ok([self.count(), 0, 0, 0]),
            Call::First => Ok([self.entries[0].id, 0, 0, 0]),
        }
    }

    fn reset(&mut self, lengths: [u32; 3]) -> Reply {
        self.entries = vec![Entry { id: 0, lengths }];
        self.seats = self.seats.map(|seats| Seats::new(seats.shares));
        Ok([0; 4])
    }

    fn insert(&mut self, seat: Option<usize>, before: u32, lengths: [u32; 3]) -> Reply {
        let place = if before == NONE { self.entries.len() } else { self.place(before)? };
        self.totals_fit([0; 3], lengths)?;
        self.room(seat)?;
        let id = self.count();
        self.entries.insert(place, Entry { id, lengths });
        self.charge(seat);
        Ok([id, self.before(EFFECT, place), 0, 0])
    }

    fn split(&mut self, seat: Option<usize>, id: u32, lengths: [u32; 3], before: bool) -> Reply {
        let place = self.place(id)?;
        let own = self.entries[place].lengths;
        let views = [PREPARE, EFFECT, LINES];
        if views.iter().any(|&view| lengths[view] > own[view]) {
            return Err(6);
        }
        let left = views.map(|view| own[view] - lengths[view]);
        if [lengths, left].contains(&[0; 3]) {
            return Err(17);
        }
        self.room(seat)?;
        let new = self.count();
        self.entries[place].lengths = left;
        self.entries.insert(if before { place } else { place + 1 }, Entry { id: new, lengths });
        self.charge(seat);
        Ok([new, 0, 0, 0])
    }

    fn update(&mut self, id: u32, lengths: [u32; 3]) -> Reply {
        let place = self.place(id)?;
        self.totals_fit(self.entries[place].lengths, lengths)?;
        self.entries[place].lengths = lengths;
        Ok([self.before(EFFECT, place), 0, 0, 0])
    }

    fn lookup(&self, view: usize, index: u32) -> Reply {
        let mut start = 0;
        for (place, entry) in self.entries.iter().enumerate() {
            let end = start + entry.lengths[view] as u64;
            if (start..end).contains(&(index as u64)) {
                let [effect, prepare] = [EFFECT, PREPARE].map(|view| self.before(view, place));
                return Ok([entry.id, (index as u64 - start) as u32, effect, prepare]);
            }
            start = end;
        }
        Err(5)
    }

    fn next(&self, place: usize) -> u32 {
        self.entries.get(place + 1).map_or(NONE, |entry| entry.id)
    }

    /// 0, 1, 2: the first stands before, is the same as, stands after the second.
    fn compare(&self, first: u32, second: u32) -> Reply {
        let (first, second) = (self.place(first)?, self.place(second)?);
        Ok([
            if first < second {
                0
            } else if first == second {
                1
            } else {
                2
            },
            0,
            0,
            0,
        ])
    }

    pub fn count(&self) -> u32 {
        self.entries.len() as u32
    }

    /// Where an id stands in the list; number 4 if it is not below the number of entries.
    pub fn place(&self, id: u32) -> Result<usize, u8> {
        self.entries.iter().position(|entry| entry.id == id).ok_or(4)
    }

    /// The sum of the view's lengths before a place of the list.
    pub fn before(&self, view: usize, place: usize) -> u32 {
        sum(view, &self.entries[..place]) as u32
    }

    pub fn total(&self, view: usize) -> u32 {
        self.before(view, self.entries.len())
    }

    /// Number 7 if a view's total would pass u32 with `new` in the place of `old`.
    fn totals_fit(&self, old: [u32; 3], new: [u32; 3]) -> Result<(), u8> {
        let fits = |view: usize| self.total(view) as u64 - old[view] as u64 + new[view] as u64 <= u32::MAX as u64;
        if [PREPARE, EFFECT, LINES].into_iter().all(fits) {
            Ok(())
        } else {
            Err(7)
        }
    }

    /// The entries that may still be made.
    pub fn free(&self) -> u32 {
        self.limit - self.count()
    }

    /// Number 10: "a seat above 7, a seat in a tree without seats, or none in a seated one".
    fn named(&self, seat: Option<u32>) -> Result<Option<usize>, u8> {
        match (self.seats, seat) {
            (None, None) => Ok(None),
            (Some(_), Some(seat @ 0..=7)) => Ok(Some(seat as usize)),
            _ => Err(10),
        }
    }

    /// Number 8 if a row without seats holds its limit; number 18 if the seat's entry would be over the rules.
    fn room(&self, seat: Option<usize>) -> Result<(), u8> {
        match self.seats.zip(seat) {
            Some((seats, seat)) if seats.may_take(seat, self.free()) => Ok(()),
            Some(_) => Err(18),
            None if self.free() > 0 => Ok(()),
            None => Err(8),
        }
    }

    /// "The new entry is charged to it."
    fn charge(&mut self, seat: Option<usize>) {
        if let Some((seats, seat)) = self.seats.as_mut().zip(seat) {
            seats.charges[seat] += 1;
        }
    }
}

fn sum(view: usize, entries: &[Entry]) -> u64 {
    entries.iter().map(|entry| entry.lengths[view] as u64).sum()
}

/// What the program `rowrun` prints for these bytes: fan 8, limit 512, first entry (0, 0, 0).
pub fn rowrun(input: &[u8]) -> String {
    let mut row = Row::make(512, [0; 3]);
    let mut printed = String::new();
    let (records, tail) = input.as_chunks::<16>();
    for record in records {
        let Answer { number, fields: [x, y, z, _] } = row.play(&Record::decode(record));
        printed += &format!("{number} {x} {y} {z}\n");
    }
    if !tail.is_empty() {
        printed += "11 0 0 0\n";
    }
    printed
}
