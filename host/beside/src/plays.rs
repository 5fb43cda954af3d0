//! What the calls on any cursors are made on: the exports, `host/smelvock`'s own calls, or what stands in for them in a test that
//! must fail.

use crate::exports::{Answer, Export, Given, Tree};
use crate::port::side;
use crate::words;
use smelvock::raw::NONE;
use smelvock::{Cursor, PrepareEffectTree, Refusal};

pub trait Plays {
    fn play(&mut self, export: Export, given: &Given) -> Answer;
    /// Head, leaves, inner nodes, homes.
    fn words(&self) -> [Vec<u32>; 4];
}

impl Plays for Tree {
    fn play(&mut self, export: Export, given: &Given) -> Answer {
        export.play(self, given)
    }

    fn words(&self) -> [Vec<u32>; 4] {
        [&self.head, &self.leaves, &self.inners, &self.homes].map(|area| area.words().to_vec())
    }
}

/// A refusal has no values here: `host/smelvock` hands none on.
impl<const N: usize> Plays for PrepareEffectTree<N> {
    fn play(&mut self, export: Export, given: &Given) -> Answer {
        let done = match export {
            Export::Reset | Export::Insert | Export::SplitEntry | Export::SetLengths | Export::Update => {
                change(self, export, given)
            }
            _ => ask(self, export, given),
        };
        match done {
            Ok(values) => Answer { number: 0, values },
            Err(Refusal { number }) => Answer { number, values: Vec::new() },
        }
    }

    fn words(&self) -> [Vec<u32>; 4] {
        let areas = self.areas();
        [&self.head()[..], areas.leaves, areas.inners, areas.homes].map(<[u32]>::to_vec)
    }
}

type Done = Result<Vec<u32>, Refusal>;

fn standing(at: Cursor) -> Vec<u32> {
    words::standing(at.into()).to_vec()
}

/// A seat as `host/smelvock` takes it; one that isn't a byte is none of the eight either way.
fn byte(seat: u32) -> u8 {
    seat.try_into().unwrap_or(u8::MAX)
}

fn change<const N: usize>(tree: &mut PrepareEffectTree<N>, export: Export, given: &Given) -> Done {
    let (at, lengths) = (given.at.into(), given.lengths.into());
    let before = (given.end == 0).then_some(at);
    match export {
        Export::Reset => tree.reset(lengths).map(|()| vec![]),
        Export::Insert => {
            let done = match given.seat {
                None => tree.insert(before, lengths),
                Some(seat) => tree.insert_for(byte(seat), before, lengths),
            };
            done.map(|(id, position)| vec![id, position])
        }
        Export::SplitEntry => {
            let (id, parts) = match given.seat {
                None => tree.split_entry(at, lengths, given.before == 1)?,
                Some(seat) => tree.split_entry_for(byte(seat), at, lengths, given.before == 1)?,
            };
            Ok([vec![id], parts.map(standing).concat()].concat())
        }
        Export::SetLengths => tree.set_lengths(at, lengths).map(|()| vec![]),
        _ => tree.update(at, lengths).map(|position| vec![position]),
    }
}

fn ask<const N: usize>(tree: &mut PrepareEffectTree<N>, export: Export, given: &Given) -> Done {
    let [at, other] = [given.at, given.other].map(Cursor::from);
    let view = side(given.view as usize);
    match export {
        Export::Len => tree.len().map(|entries| vec![entries as u32]),
        Export::IsEmpty => tree.is_empty().map(|empty| vec![empty as u32]),
        Export::First => tree.first().map(standing),
        Export::Next => tree.next(at).map(|next| next.map_or(vec![NONE, 0, 0, 0], standing)),
        Export::Id => tree.id(at).map(|id| vec![id]),
        Export::Lengths => tree.lengths(at).map(|of| vec![of.prepare, of.effect, of.lines]),
        Export::Cursor => tree.cursor(given.id).map(standing),
        Export::Cmp => tree.cmp(at, other).map(|order| vec![(order as i32 + 1) as u32]),
        Export::CharIndexToEntry => {
            let (at, offset, examined) = tree.char_index_to_entry(view, given.index)?;
            Ok([standing(at), vec![offset, examined]].concat())
        }
        Export::Locate => {
            let (at, offset, position, prepare, examined) = tree.locate(view, given.index)?;
            Ok([standing(at), vec![offset, position, prepare, examined]].concat())
        }
        Export::EntryToCharIndex => tree.entry_to_char_index(view, at).map(|position| vec![position]),
        _ => panic!("{export:?} is no call of a list"),
    }
}
