//! Lists of calls by id in trees with seats: on the port, on lib.rs, which plays what isn't refused, and on the row with charges.

use crate::any_cursor::Beside;
use crate::cursors::malformed;
use crate::exports::{Answer, Export, Given};
use crate::plays::Plays;
use crate::port::three;
use crate::words::cursor_of;
use oracle::driver::Parted;
use oracle::record::Call;
use oracle::row::Row;
use oracle::seats::Seats;
use oracle::state::NONE;
use smelvock::raw::Cursor;

#[derive(Clone)]
pub struct Seated<const N: usize, P> {
    pub row: Row,
    beside: Beside<N, P>,
}

impl<const N: usize, P: Plays> Seated<N, P> {
    /// The port has just been made as the row was.
    pub fn new(port: P, row: Row) -> Self {
        Seated { beside: Beside::seated(port, row.clone()), row }
    }

    /// Makes the call, in which an insert or split names that seat. Number, fields, shares and charges must be the row's, and all else
    /// is compared with lib.rs. A seat below its share is never refused for space.
    pub fn play(&mut self, seat: Option<u32>, call: Call) -> Result<u32, Parted> {
        let before = self.row.seats;
        let wanted = self.row.answer_for(seat, Some(call));
        let (number, fields) = self.by_id(seat, call)?;
        let seats = self.beside.state().head.seats;
        let parted = |what: &str| {
            Err(format!("N {N}, {call:?} for {seat:?}: {what}: {number} {fields:?} {seats:?}, row {wanted:?}"))
        };
        if (number, fields) != (wanted.number as u32, wanted.fields) {
            return parted("answer");
        }
        if seats != self.row.seats {
            return parted(&format!("charges, row {:?}", self.row.seats));
        }
        let below = |seats: Seats| seat.is_some_and(|seat| seat < 8 && seats.below(seat as usize));
        if [8, 18].contains(&number) && before.is_some_and(below) {
            return parted("refused for space below its share");
        }
        Ok(number)
    }

    /// The call on the cursors that `cursor` answers; on none where it is malformed.
    fn by_id(&mut self, seat: Option<u32>, call: Call) -> Result<(u32, [u32; 4]), Parted> {
        let (export, given) = asked(call);
        let mut given = Given { seat, ..given };
        if !malformed(&self.beside.state(), export, &given) {
            for (id, at) in call.ids().into_iter().zip([&mut given.at, &mut given.other]) {
                let Some(id) = id else { continue };
                let found = self.beside.play(Export::Cursor, &Given { id, ..Given::default() })?;
                if found.number != 0 {
                    return Ok((found.number, [0; 4]));
                }
                *at = first_cursor(&found.values);
            }
        }
        let Answer { number, values } = self.beside.play(export, &given)?;
        let fields = if number == 0 { self.fields(call, &values)? } else { [0; 4] };
        Ok((number, fields))
    }

    /// The row's fields of an answer: cursors are read by `id`.
    fn fields(&mut self, call: Call, values: &[u32]) -> Result<[u32; 4], Parted> {
        let [first, second, third] = [0, 1, 2].map(|at| values.get(at).copied().unwrap_or(0));
        Ok(match call {
            Call::Next { .. } if first == NONE => [NONE, 0, 0, 0],
            Call::Next { .. } | Call::First => [self.id(values)?, 0, 0, 0],
            Call::Lookup { .. } => [self.id(values)?, values[4], values[5], values[6]],
            Call::Select { .. } => [self.id(values)?, values[4], 0, 0],
            Call::Split { .. } => [first, 0, 0, 0],
            _ => [first, second, third, 0],
        })
    }

    fn id(&mut self, values: &[u32]) -> Result<u32, Parted> {
        let at = first_cursor(values);
        Ok(self.beside.play(Export::Id, &Given { at, ..Given::default() })?.values[0])
    }
}

fn first_cursor(values: &[u32]) -> Cursor {
    cursor_of([0, 1, 2, 3].map(|at| values[at]))
}

/// The export for a call, and what it is given beside cursors and seat.
fn asked(call: Call) -> (Export, Given) {
    let none = Given { lengths: three(call.lengths().unwrap_or_default()).into(), ..Given::default() };
    match call {
        Call::Reset { .. } => (Export::Reset, none),
        Call::Insert { before, .. } => (Export::Insert, Given { end: (before == NONE) as u32, ..none }),
        Call::Split { before, .. } => (Export::SplitEntry, Given { before: before as u32, ..none }),
        Call::Set { .. } => (Export::SetLengths, none),
        Call::Update { .. } => (Export::Update, none),
        Call::Lookup { view, index } => (Export::Locate, Given { view: view as u32, index, ..none }),
        Call::Select { view, index } => (Export::CharIndexToEntry, Given { view: view as u32, index, ..none }),
        Call::Rank { view, .. } => (Export::EntryToCharIndex, Given { view: view as u32, ..none }),
        Call::Next { .. } => (Export::Next, none),
        Call::Compare { .. } => (Export::Cmp, none),
        Call::Lengths { .. } => (Export::Lengths, none),
        Call::Count => (Export::Len, none),
        Call::First => (Export::First, none),
    }
}
