//! Every export on words that may be any, in a head, areas and a buffer with guards around them.

use crate::words::{joined, parted, standing};
use smelvock::raw::{self, word, Areas, AreasMut, Cursor, Lengths, NOBODY};
use smelvock::{PAGE_BYTES, PAGE_LINES};

/// What is lent, words or bytes, and what stands around it.
pub trait Lent: Copy + PartialEq {
    const GUARD: Self;
}

impl Lent for u32 {
    const GUARD: u32 = 0xA5A5_5A5A;
}

impl Lent for u8 {
    const GUARD: u8 = 0xA5;
}

const GUARDS: usize = 16;

/// Words lent to the port out of the midst of a buffer, or bytes.
#[derive(Clone, PartialEq, Eq, Debug)]
pub struct Area<T = u32>(Vec<T>);

impl<T: Lent> Area<T> {
    pub fn new(words: &[T]) -> Area<T> {
        Area([&[T::GUARD; GUARDS][..], words, &[T::GUARD; GUARDS][..]].concat())
    }

    pub fn words(&self) -> &[T] {
        &self.0[GUARDS..self.0.len() - GUARDS]
    }

    pub fn words_mut(&mut self) -> &mut [T] {
        let end = self.0.len() - GUARDS;
        &mut self.0[GUARDS..end]
    }

    pub fn guarded(&self) -> bool {
        let [front, back] = [&self.0[..GUARDS], &self.0[self.0.len() - GUARDS..]];
        front.iter().chain(back).all(|&word| word == T::GUARD)
    }
}

/// What a buffer holds before it is printed in: no byte of a sheet.
pub const UNPRINTED: u8 = 0x5A;

/// A buffer of so many bytes to print in.
pub fn unprinted(bytes: usize) -> Area<u8> {
    Area::new(&vec![UNPRINTED; bytes])
}

/// What areas hold before a tree is made in them.
pub const LENT: u32 = 0x5A5A_5A5A;

/// The words that each node area and homes need, of a tree whose slots have so many words; none where make refuses by 1.
pub fn needed(slot: usize, fan: u32, limit: u32) -> [usize; 2] {
    if !(4..=32).contains(&fan) || !(1..=65_536).contains(&limit) {
        return [0, 0];
    }
    [(limit / (fan / 2)).max(1) as usize * (3 + slot * fan as usize), limit as usize]
}

/// A tree, sound or not, and a buffer to print in.
#[derive(Clone, PartialEq, Eq, Debug)]
pub struct Tree {
    pub head: Area,
    pub leaves: Area,
    pub inners: Area,
    pub homes: Area,
    pub page: Area<u8>,
}

impl Tree {
    /// The buffer is as long as the tree's pages.
    pub fn of<const N: usize>(tree: &smelvock::PrepareEffectTree<N>) -> Tree {
        let Areas { leaves, inners, homes } = tree.areas();
        let pages = (tree.head()[word::ENTRIES] as usize).div_ceil(PAGE_LINES);
        let [head, leaves, inners, homes] = [&tree.head()[..], leaves, inners, homes].map(Area::new);
        Tree { head, leaves, inners, homes, page: unprinted(pages * PAGE_BYTES) }
    }

    /// Head and areas as long as the limit needs, in which no tree was made, and no buffer.
    pub fn unmade(slot: usize, fan: u32, limit: u32) -> Tree {
        let [nodes, homes] = needed(slot, fan, limit);
        let [head, leaves, inners, homes] = [36, nodes, nodes, homes].map(|words| Area::new(&vec![LENT; words]));
        Tree { head, leaves, inners, homes, page: unprinted(0) }
    }

    /// Head, leaves, inner nodes, homes.
    pub fn words(&self) -> [Vec<u32>; 4] {
        [&self.head, &self.leaves, &self.inners, &self.homes].map(|area| area.words().to_vec())
    }

    /// One word of the head, by its number in `raw::word`.
    pub fn word(&self, word: usize) -> u32 {
        self.head.words()[word]
    }

    /// The tree with another word in its head.
    pub fn with(&self, word: usize, value: u32) -> Tree {
        let mut tree = self.clone();
        tree.head.words_mut()[word] = value;
        tree
    }

    /// The stamp in the head.
    pub fn stamp(&self) -> u64 {
        joined([word::STAMP, word::STAMP + 1].map(|at| self.word(at)))
    }

    /// The tree with another stamp in its head.
    pub fn stamped(&self, stamp: u64) -> Tree {
        let [low, high] = parted(stamp);
        self.with(word::STAMP, low).with(word::STAMP + 1, high)
    }

    pub fn areas(&self) -> Areas<'_> {
        Areas { leaves: self.leaves.words(), inners: self.inners.words(), homes: self.homes.words() }
    }

    pub fn looked(&mut self) -> (&mut [u32], Areas<'_>) {
        let Tree { head, leaves, inners, homes, .. } = self;
        (head.words_mut(), Areas { leaves: leaves.words(), inners: inners.words(), homes: homes.words() })
    }

    fn printed(&mut self) -> (&[u32], Areas<'_>, &mut [u8]) {
        let Tree { head, leaves, inners, homes, page } = self;
        let areas = Areas { leaves: leaves.words(), inners: inners.words(), homes: homes.words() };
        (head.words(), areas, page.words_mut())
    }

    pub fn changed(&mut self) -> (&mut [u32], AreasMut<'_>) {
        let Tree { head, leaves, inners, homes, .. } = self;
        (
            head.words_mut(),
            AreasMut { leaves: leaves.words_mut(), inners: inners.words_mut(), homes: homes.words_mut() },
        )
    }

    pub fn guarded(&self) -> bool {
        [&self.head, &self.leaves, &self.inners, &self.homes].iter().all(|area| area.guarded()) && self.page.guarded()
    }
}

/// What the exports are given beside the tree; each takes what it needs.
#[derive(Clone, Copy, Debug, Default)]
pub struct Given {
    pub at: Cursor,
    pub other: Cursor,
    pub id: u32,
    pub view: u32,
    pub index: u32,
    pub lengths: Lengths,
    pub end: u32,
    pub before: u32,
    pub fan: u32,
    pub limit: u32,
    pub shares: Option<[u32; 8]>,
    /// Nobody where there is none.
    pub seat: Option<u32>,
}

#[derive(Clone, Copy, PartialEq, Eq, PartialOrd, Ord, Debug)]
pub enum Export {
    New,
    Reset,
    Len,
    IsEmpty,
    First,
    Next,
    Id,
    Lengths,
    Cursor,
    Cmp,
    CharIndexToEntry,
    Locate,
    EntryToCharIndex,
    SetLengths,
    Update,
    Insert,
    SplitEntry,
    Print,
    Audit,
    Repair,
}

pub const EXPORTS: [Export; 20] = [
    Export::New,
    Export::Reset,
    Export::Len,
    Export::IsEmpty,
    Export::First,
    Export::Next,
    Export::Id,
    Export::Lengths,
    Export::Cursor,
    Export::Cmp,
    Export::CharIndexToEntry,
    Export::Locate,
    Export::EntryToCharIndex,
    Export::SetLengths,
    Export::Update,
    Export::Insert,
    Export::SplitEntry,
    Export::Print,
    Export::Audit,
    Export::Repair,
];

/// The number and the values of an answer; a cursor is four of them, leaf, slot, and the stamp's words.
#[derive(Clone, PartialEq, Eq, Debug)]
pub struct Answer {
    pub number: u32,
    pub values: Vec<u32>,
}

fn answer(number: u32, values: &[u32]) -> Answer {
    Answer { number, values: values.to_vec() }
}

impl Export {
    /// Makes the call. The guards must be whole after it.
    pub fn play(self, tree: &mut Tree, given: &Given) -> Answer {
        let answer = match self {
            Export::CharIndexToEntry | Export::Locate => self.look(tree, given),
            Export::Print => {
                let (head, areas, page) = tree.printed();
                let r = raw::print(head, areas, page);
                answer(r.number, &[r.value])
            }
            _ => self.change(tree, given).unwrap_or_else(|| self.read(tree, given)),
        };
        assert!(tree.guarded(), "{self:?} wrote outside head, areas and buffer");
        answer
    }

    fn look(self, tree: &mut Tree, given: &Given) -> Answer {
        let (head, areas) = tree.looked();
        if self == Export::Locate {
            let r = raw::locate(head, areas, given.view, given.index);
            return answer(r.number, &[&standing(r.at)[..], &[r.offset, r.position, r.prepare, r.examined]].concat());
        }
        let r = raw::char_index_to_entry(head, areas, given.view, given.index);
        answer(r.number, &[&standing(r.at)[..], &[r.offset, r.examined]].concat())
    }

    fn change(self, tree: &mut Tree, given: &Given) -> Option<Answer> {
        let (head, areas) = tree.changed();
        let Given { at, lengths, end, before, fan, limit, shares, seat, .. } = *given;
        let (shares, seat) = (shares.as_ref().map_or(&[][..], |shares| shares), seat.unwrap_or(NOBODY));
        let number = |r: raw::Number| answer(r.number, &[r.value]);
        Some(match self {
            Export::New => answer(raw::new(fan, limit, lengths, shares, head, areas), &[]),
            Export::Reset => answer(raw::reset(head, areas, lengths), &[]),
            Export::SetLengths => answer(raw::set_lengths(head, areas, at, lengths), &[]),
            Export::Update => number(raw::update(head, areas, at, lengths)),
            Export::Repair => number(raw::repair(head, areas)),
            Export::Insert => {
                let r = raw::insert(head, areas, seat, end, at, lengths);
                answer(r.number, &[r.id, r.position])
            }
            Export::SplitEntry => {
                let r = raw::split_entry(head, areas, seat, at, lengths, before);
                answer(r.number, &[&[r.id][..], &standing(r.first), &standing(r.second)].concat())
            }
            _ => return None,
        })
    }

    fn read(self, tree: &Tree, given: &Given) -> Answer {
        let (head, areas) = (tree.head.words(), tree.areas());
        let standing = |r: raw::Standing| answer(r.number, &standing(r.at));
        let number = |r: raw::Number| answer(r.number, &[r.value]);
        match self {
            Export::Len => number(raw::len(head)),
            Export::IsEmpty => number(raw::is_empty(head)),
            Export::First => standing(raw::first(head, areas)),
            Export::Next => standing(raw::next(head, areas, given.at)),
            Export::Id => number(raw::id(head, areas, given.at)),
            Export::Lengths => {
                let r = raw::lengths(head, areas, given.at);
                answer(r.number, &[r.lengths.prepare, r.lengths.effect, r.lengths.lines])
            }
            Export::Cursor => standing(raw::cursor(head, areas, given.id)),
            Export::Cmp => number(raw::cmp(head, areas, given.at, given.other)),
            Export::EntryToCharIndex => number(raw::entry_to_char_index(head, areas, given.view, given.at)),
            _ => number(raw::audit(head, areas)),
        }
    }
}
