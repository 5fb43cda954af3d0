//! The port beside lib.rs on calls with any cursors, one by one or in lists that keep old and mangled ones in play.

use crate::cursors::{answer, entry_at, issued, malformed, tested, wanted};
use crate::exports::{Answer, Export, Given};
use crate::met::Met;
use crate::plays::Plays;
use crate::words::raw_of;
use oracle::driver::Parted;
use oracle::lined::Lined;
use oracle::random::Random;
use oracle::row::Row;
use oracle::state::{State, MOST_LINES};
use smelvock::raw::{Cursor, Lengths};
use std::rc::Rc;

#[derive(Clone)]
pub struct Beside<const N: usize, P> {
    rust: Lined<N>,
    port: P,
    /// What the last call left: lib.rs's state with line ends, and the port's words.
    state: Rc<State>,
    words: [Vec<u32>; 4],
}

impl<const N: usize, P: Plays> Beside<N, P> {
    /// The port has just been made with that limit and one entry of those lengths.
    pub fn new(port: P, limit: u32, lengths: [u32; 3]) -> Self {
        Self::stamped(port, limit, lengths, 1)
    }

    /// The same with that stamp in the port's head in place of 1.
    pub fn stamped(port: P, limit: u32, lengths: [u32; 3], stamp: u64) -> Self {
        let mut rust = Lined::make(limit, lengths);
        rust.made = stamp;
        Self::with(port, rust)
    }

    /// The same of a port with seats, whose row this is.
    pub fn seated(port: P, row: Row) -> Self {
        Self::with(port, Lined::beside(row))
    }

    fn with(port: P, rust: Lined<N>) -> Self {
        let (state, words) = (Rc::new(rust.state()), port.words());
        Beside { rust, port, state, words }
    }

    /// lib.rs's state.
    pub fn state(&self) -> Rc<State> {
        Rc::clone(&self.state)
    }

    /// Makes the call on the port. Its number must be the one that lib.rs's state wants. Where that is 0 the call is made on lib.rs
    /// too, and answers and words are compared; else the values must be zeros and every word as it was.
    pub fn play(&mut self, export: Export, given: &Given) -> Result<Answer, Parted> {
        let number = wanted(&self.state, export, given);
        let got = self.port.play(export, given);
        let words = self.port.words();
        let parted = |what: &str| Err(format!("N {N}, {export:?} {given:?}: {what}: {got:?}, wanted {number}"));
        if got.number != number {
            return parted("number");
        }
        if number != 0 {
            return match got.values.iter().all(|&value| value == 0) {
                false => parted("a value beside a refusal"),
                true if words != self.words => parted("words changed by a refused call"),
                true => Ok(got),
            };
        }
        let values = answer(&mut self.rust, export, given);
        self.state = Rc::new(self.rust.state());
        if got.values != values {
            return parted(&format!("lib.rs answers {values:?}"));
        }
        if !self.rust.looked.within() {
            return parted(&format!("past a bound, {:?}", self.rust.looked));
        }
        if !self.same_words(&words) {
            return parted("words of head or areas");
        }
        self.words = words;
        Ok(got)
    }

    /// Whether these are lib.rs's words, with the row's line ends; those not in use must be as they were.
    fn same_words(&self, words: &[Vec<u32>; 4]) -> bool {
        let [head, areas @ ..] = words;
        let same = |((area, before), used): ((&Vec<u32>, &Vec<u32>), Vec<u32>)| {
            area.starts_with(&used) && area[used.len()..] == before[used.len()..]
        };
        *head == raw_of(self.state.head) && areas.iter().zip(&self.words[1..]).zip(self.rust.used()).all(same)
    }
}

/// A cursor of a list, and where it was issued; nothing where a word of it was changed since.
#[derive(Clone, Copy, PartialEq, Eq, Debug)]
pub struct Drawn {
    pub at: Cursor,
    pub issued: Option<Issued>,
}

/// Where a cursor was issued: for which entry, in a sheet of how many, and by the list's own counts after how many entries and how many
/// resets.
#[derive(Clone, Copy, PartialEq, Eq, Debug)]
pub struct Issued {
    pub entry: u32,
    pub entries: u32,
    pub made: u64,
    pub resets: u64,
}

/// What a list is like.
#[derive(Clone, Copy, Debug)]
pub struct Style {
    pub name: &'static str,
    pub limit: u32,
    /// One call in so many is a reset.
    pub reset_every: u64,
}

/// How often each call stands in a list, beside resets.
const WEIGHTS: [(Export, u64); 15] = [
    (Export::Insert, 18),
    (Export::SplitEntry, 8),
    (Export::SetLengths, 5),
    (Export::Update, 5),
    (Export::EntryToCharIndex, 5),
    (Export::Next, 5),
    (Export::Cmp, 12),
    (Export::Lengths, 5),
    (Export::Id, 5),
    (Export::Locate, 7),
    (Export::CharIndexToEntry, 7),
    (Export::Cursor, 5),
    (Export::First, 1),
    (Export::Len, 1),
    (Export::IsEmpty, 1),
];

/// How many cursors a list keeps.
const KEPT: usize = 40;

/// A list as it is played, and what it has met.
pub struct List<const N: usize, P> {
    beside: Beside<N, P>,
    style: Style,
    random: Random,
    /// Cursors that calls have answered, old ones and such from before a reset among them.
    kept: Vec<Drawn>,
    /// The entries made and the resets, counted here by the calls that were not refused.
    made: u64,
    resets: u64,
    pub met: Met,
}

impl<const N: usize, P: Plays> List<N, P> {
    /// `made` entries were made so far.
    pub fn new(beside: Beside<N, P>, style: Style, seed: u64, made: u64) -> Self {
        List { beside, style, random: Random::new(seed), kept: Vec::new(), made, resets: 0, met: Met::default() }
    }

    /// The entries made, by the list's own count.
    pub fn made(&self) -> u64 {
        self.made
    }

    /// Draws so many calls and plays each. The middle one is a reset whatever is drawn.
    pub fn play(&mut self, calls: u64) -> Result<(), Parted> {
        (0..calls).try_for_each(|call| self.step(call == calls / 2))
    }

    fn step(&mut self, reset: bool) -> Result<(), Parted> {
        let state = self.beside.state();
        let export = if reset { Export::Reset } else { self.export() };
        let drawn = [self.cursor(&state), self.cursor(&state)];
        let mut given = self.given(&state, drawn.map(|drawn| drawn.at));
        if reset {
            given.lengths.lines = 0;
        }
        let Answer { number, values } = self.beside.play(export, &given)?;
        self.by_count(export, &given, drawn, number)?;
        self.met.note(&state, export, &given, drawn, self.resets, number);
        if number == 0 {
            let makes = [Export::Reset, Export::Insert, Export::SplitEntry].contains(&export);
            self.made = self.made.wrapping_add(makes as u64);
            self.resets += (export == Export::Reset) as u64;
            issued(export, &values).into_iter().for_each(|at| self.keep(at));
        }
        Ok(())
    }

    /// A cursor that is as it was issued is current exactly where no entry was made since, and else refused by 3. One that was changed
    /// may be anything.
    fn by_count(&self, export: Export, given: &Given, drawn: [Drawn; 2], number: u32) -> Result<(), Parted> {
        let cursors = tested(export, given).len();
        if cursors == 0 || malformed(&self.beside.state, export, given) {
            return Ok(());
        }
        let parted = |what| Err(format!("N {N}, {export:?} {given:?}: {what} after {} entries: {number}", self.made));
        for issued in drawn.into_iter().take(cursors).map(|drawn| drawn.issued) {
            match issued {
                None => return Ok(()),
                Some(issued) if issued.made == self.made => {}
                Some(_) if number == 3 => return Ok(()),
                Some(issued) => return parted(format!("{issued:?}")),
            }
        }
        if [3, 13, 14].contains(&number) {
            return parted("a current cursor".into());
        }
        Ok(())
    }

    fn export(&mut self) -> Export {
        if self.random.below(self.style.reset_every) == 0 {
            return Export::Reset;
        }
        let mut left = self.random.below(WEIGHTS.iter().map(|(_, weight)| weight).sum());
        for (export, weight) in WEIGHTS {
            if left < weight {
                return export;
            }
            left -= weight;
        }
        Export::Len
    }

    fn keep(&mut self, at: Cursor) {
        let drawn = self.drawn(&self.beside.state, at);
        if self.kept.len() < KEPT {
            self.kept.push(drawn);
        } else {
            self.kept[self.random.below(KEPT as u64) as usize] = drawn;
        }
    }

    /// A cursor that is issued now.
    fn drawn(&self, state: &State, at: Cursor) -> Drawn {
        let List { made, resets, .. } = *self;
        Drawn {
            at,
            issued: entry_at(state, at).map(|entry| Issued { entry, entries: state.head.entry_count, made, resets }),
        }
    }

    /// One of those kept or a current one, as it is or mangled.
    fn cursor(&mut self, state: &State) -> Drawn {
        let drawn = if self.kept.is_empty() || self.random.percent(60) {
            let leaf = self.below(state.head.leaf_count);
            let slot = self.below(state.leaf(leaf).len());
            self.drawn(state, Cursor { leaf, slot, stamp: self.made })
        } else {
            self.kept[self.random.below(self.kept.len() as u64) as usize]
        };
        if self.random.percent(40) {
            return drawn;
        }
        Drawn { at: self.mangled(drawn.at, state), issued: None }
    }

    /// The cursor with another stamp, often the present one, another leaf or slot, or several of them.
    fn mangled(&mut self, at: Cursor, state: &State) -> Cursor {
        let mut now = at;
        while now == at {
            now.stamp = match self.random.below(4) {
                0 => self.near(at.stamp, self.made),
                1 => at.stamp,
                _ => self.made,
            };
            if self.random.percent(40) {
                now.leaf = self.near(at.leaf as u64, state.head.leaf_count as u64) as u32;
            }
            if self.random.percent(40) {
                let in_use = now.leaf < state.head.leaf_count;
                let end = if in_use { state.leaf(now.leaf).len() } else { state.head.fan };
                now.slot = self.near(at.slot as u64, end as u64) as u32;
            }
        }
        now
    }

    /// A number beside the cursor's own, one bit off the first that is too much, around that one, below it, or any.
    fn near(&mut self, own: u64, end: u64) -> u64 {
        match self.random.below(9) {
            0 => own.wrapping_add(1),
            1 => own.wrapping_sub(1),
            2 => end ^ 1 << self.random.below(64),
            3 => end,
            4 => end.wrapping_sub(1),
            5 => end.wrapping_add(1),
            6 | 7 => self.random.below(end.max(1)),
            _ => [0, u64::MAX, self.random.word()][self.random.below(3) as usize],
        }
    }

    fn given(&mut self, state: &State, [at, other]: [Cursor; 2]) -> Given {
        let view = self.below(3);
        let total = state.inner(state.head.root).total()[view as usize];
        let far = if self.random.percent(4) { u32::MAX } else { 0 };
        let mut length = |most| if far == 0 { self.random.below(most) as u32 } else { far };
        let [prepare, effect] = [4, 3].map(&mut length);
        Given {
            at,
            other,
            lengths: Lengths { prepare, effect, lines: self.line_ends() },
            id: self.below(state.head.entry_count + 1),
            view,
            index: self.random.below(total + 1) as u32,
            end: self.random.percent(15) as u32,
            before: self.below(2),
            fan: state.head.fan,
            limit: state.head.limit,
            shares: None,
            seat: state.head.seats.and_then(|_| self.seat()),
        }
    }

    /// Mostly one of the first three; seldom none, or one that there isn't.
    fn seat(&mut self) -> Option<u32> {
        match self.random.below(40) {
            0 => None,
            1 => Some([8, 9, 255, u32::MAX - 1][self.random.below(4) as usize]),
            2..=9 => Some(self.below(8)),
            _ => Some(self.below(3)),
        }
    }

    /// Mostly 0; seldom as many as an entry may have, or more.
    fn line_ends(&mut self) -> u32 {
        match self.random.below(100) {
            0 => MOST_LINES,
            1 => MOST_LINES + 1,
            2 => u32::MAX,
            _ => self.below(6).saturating_sub(3),
        }
    }

    fn below(&mut self, end: u32) -> u32 {
        self.random.below(end as u64) as u32
    }
}
