//! A tree of the port at whichever fan, played by id.

use crate::words::{Area, Words};
use beside::port::{side, three};
use oracle::audit::make_allowed;
use oracle::record::Call;
use oracle::state::{node_words, NONE};
use smelvock::{raw, Cursor, PrepareEffectTree, Refusal};

/// What a call answered: the fields of the row's answer, and how many slots a lookup examined, 0 of another call.
#[derive(Clone, Copy, PartialEq, Eq, Debug)]
pub struct Done {
    pub fields: [u32; 4],
    pub examined: u32,
}

/// A call's answer, or why it was not done.
pub type Reply = Result<Done, Refusal>;

/// What the console plays on.
pub trait Tree {
    /// A call of the row, of which an insert or split names that seat, or none.
    fn call(&mut self, seat: Option<u32>, call: Call) -> Reply;
    fn cursor(&self, id: u32) -> Result<raw::Cursor, Refusal>;
    fn is_empty(&self) -> Result<bool, Refusal>;
    fn audit(&self) -> Result<bool, Refusal>;
    fn repair(&mut self) -> Result<u32, Refusal>;
    /// The pages of the sheet.
    fn pages(&self) -> Result<Vec<u8>, Refusal>;
    fn words(&self) -> Words;
    /// Writes a word, as no call does; not where there is no such word.
    fn damage(&mut self, area: Area, word: u32, value: u32) -> bool;
}

/// `at_any_fan!(fan, N => value)`: the value for a fan from 4 to 32, which is the constant `N` in it.
macro_rules! at_any_fan {
    ($fan:expr, $constant:ident => $value:expr) => {
        oracle::at_fan!($fan, $constant => $value;
            4 5 6 7 8 9 10 11 12 13 14 15 16 17 18 19 20 21 22 23 24 25 26 27 28 29 30 31 32)
    };
}
pub(crate) use at_any_fan;

/// Makes a tree of one entry on areas of zeros, so that every word of them is known.
pub fn make(fan: u32, limit: u32, lengths: [u32; 3], shares: Option<[u32; 8]>) -> Result<Box<dyn Tree>, Refusal> {
    let [nodes, entries] = if make_allowed(fan, limit) { [(limit / (fan / 2)).max(1), limit] } else { [0, 0] };
    let nodes = nodes as usize * node_words(fan.min(32));
    let mut head = [0; 36];
    let [mut leaves, mut inners, mut homes] = [nodes, nodes, entries as usize].map(|words| vec![0; words]);
    let areas = raw::AreasMut { leaves: &mut leaves, inners: &mut inners, homes: &mut homes };
    let shares = shares.as_ref().map_or(&[][..], |shares| &shares[..]);
    match raw::new(fan, limit, three(lengths).into(), shares, &mut head, areas) {
        0 => Ok(at_any_fan!(fan, N => Box::new(PrepareEffectTree::<N>::from_words(head, leaves, inners, homes)))),
        number => Err(Refusal { number }),
    }
}

impl<const N: usize> Tree for PrepareEffectTree<N> {
    /// `cursor(id)` and the call there, the tests of both in the order of the refusals: 10, which is the call's, before 4.
    fn call(&mut self, seat: Option<u32>, call: Call) -> Reply {
        let found = call.ids().map(|id| id.map(|id| PrepareEffectTree::cursor(self, id)).transpose());
        match found {
            [Ok(at), Ok(other)] => played(self, seat, call, at, other),
            [Err(refusal), _] | [_, Err(refusal)] => {
                let outdated = outdated(self);
                let by_field = played(self, seat, call, Some(outdated), Some(outdated)) == Err(Refusal::FIELD);
                Err(if by_field { Refusal::FIELD } else { refusal })
            }
        }
    }

    fn cursor(&self, id: u32) -> Result<raw::Cursor, Refusal> {
        PrepareEffectTree::cursor(self, id).map(raw::Cursor::from)
    }

    fn is_empty(&self) -> Result<bool, Refusal> {
        PrepareEffectTree::is_empty(self)
    }

    fn audit(&self) -> Result<bool, Refusal> {
        PrepareEffectTree::audit(self)
    }

    fn repair(&mut self) -> Result<u32, Refusal> {
        PrepareEffectTree::repair(self)
    }

    fn pages(&self) -> Result<Vec<u8>, Refusal> {
        PrepareEffectTree::sheet(self)
    }

    fn words(&self) -> Words {
        let raw::Areas { leaves, inners, homes } = self.areas();
        let [leaves, inners, homes] = [leaves, inners, homes].map(<[u32]>::to_vec);
        Words { head: self.head(), leaves, inners, homes }
    }

    fn damage(&mut self, area: Area, word: u32, value: u32) -> bool {
        let mut words = Tree::words(self);
        let there = words.area_mut(area).get_mut(word as usize).map(|word| *word = value).is_some();
        *self = PrepareEffectTree::from_words(words.head, words.leaves, words.inners, words.homes);
        there
    }
}

/// A cursor that isn't current: a call there is refused, by 10 if a field is bad.
fn outdated<const N: usize>(tree: &PrepareEffectTree<N>) -> Cursor {
    let [low, high] = [tree.head()[raw::word::STAMP], tree.head()[raw::word::STAMP + 1]];
    let stamp = (high as u64) << 32 | low as u64;
    raw::Cursor { stamp: stamp.wrapping_add(1), ..raw::Cursor::default() }.into()
}

/// A seat as `smelvock` takes it; one that isn't a byte is none of the eight either way.
fn byte(seat: u32) -> u8 {
    seat.try_into().unwrap_or(u8::MAX)
}

/// The call at the cursors of the entries that it names.
fn played<const N: usize>(
    tree: &mut PrepareEffectTree<N>,
    seat: Option<u32>,
    call: Call,
    at: Option<Cursor>,
    other: Option<Cursor>,
) -> Reply {
    let [entry, other] = [at, other].map(|at| at.unwrap_or(raw::Cursor::default().into()));
    let mut examined = 0;
    let fields = match call {
        Call::Reset { lengths } => tree.reset(three(lengths)).map(|()| [0; 4])?,
        Call::Insert { lengths, .. } => inserted(tree, seat, at, lengths)?,
        Call::Split { lengths, before, .. } => divided(tree, seat, entry, lengths, before)?,
        Call::Set { lengths, .. } => tree.set_lengths(entry, three(lengths)).map(|()| [0; 4])?,
        Call::Update { lengths, .. } => [tree.update(entry, three(lengths))?, 0, 0, 0],
        Call::Lookup { view, index } => {
            let (at, offset, effect, prepare, slots) = tree.locate(side(view), index)?;
            examined = slots;
            [tree.id(at)?, offset, effect, prepare]
        }
        Call::Select { view, index } => {
            let (at, offset, slots) = tree.char_index_to_entry(side(view), index)?;
            examined = slots;
            [tree.id(at)?, offset, 0, 0]
        }
        Call::Rank { view, .. } => [tree.entry_to_char_index(side(view), entry)?, 0, 0, 0],
        Call::Next { .. } => [tree.next(entry)?.map_or(Ok(NONE), |at| tree.id(at))?, 0, 0, 0],
        Call::Compare { .. } => [(tree.cmp(entry, other)? as i32 + 1) as u32, 0, 0, 0],
        Call::Lengths { .. } => {
            let lengths = tree.lengths(entry)?;
            [lengths.prepare, lengths.effect, lengths.lines, 0]
        }
        Call::Count => [tree.len()? as u32, 0, 0, 0],
        Call::First => [tree.id(tree.first()?)?, 0, 0, 0],
    };
    Ok(Done { fields, examined })
}

fn inserted<const N: usize>(
    tree: &mut PrepareEffectTree<N>,
    seat: Option<u32>,
    before: Option<Cursor>,
    lengths: [u32; 3],
) -> Result<[u32; 4], Refusal> {
    let (id, position) = match seat {
        None => tree.insert(before, three(lengths))?,
        Some(seat) => tree.insert_for(byte(seat), before, three(lengths))?,
    };
    Ok([id, position, 0, 0])
}

fn divided<const N: usize>(
    tree: &mut PrepareEffectTree<N>,
    seat: Option<u32>,
    at: Cursor,
    lengths: [u32; 3],
    before: bool,
) -> Result<[u32; 4], Refusal> {
    let (id, _) = match seat {
        None => tree.split_entry(at, three(lengths), before)?,
        Some(seat) => tree.split_entry_for(byte(seat), at, three(lengths), before)?,
    };
    Ok([id, 0, 0, 0])
}
