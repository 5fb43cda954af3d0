//! The reading copy's exports on words that may be any, with guards around them, and lists of its calls: on the port, on the plain row and on
//! lib.rs with the effect lengths alone, and beside the full tree. A call carries all three lengths; the copy is given the effect one.

use crate::exports::{needed, Tree, LENT};
use crate::words::{head_of, slots_of};
use oracle::audit::{audit, Verdict};
use oracle::calls::Calls;
use oracle::driver::Parted;
use oracle::examined::Examined;
use oracle::lined::Lined;
use oracle::record::{Answer, Call};
use oracle::row::{Entry, Row};
use oracle::state::{State, EFFECT, LINES, MOST_LINES, NONE};
use smelvock::raw::{self, reading, word, Number};
use smelvock::{Cursor, Lengths, PrepareEffectTree, ReadingCopy, Refusal, View};

/// A number, and the values that both trees give: of a lookup the id, the offset and the effect position.
pub type Said = (u32, [u32; 3]);

/// What the calls are made on.
pub trait Copies: Clone {
    fn play(&mut self, call: Call) -> Said;
    /// Head, leaves, inner nodes, homes.
    fn words(&self) -> [Vec<u32>; 4];
}

/// The words of a node.
pub fn node_words(fan: u32) -> usize {
    3 + 2 * fan as usize
}

/// A tree made on areas as long as the limit needs, with that length for its entry, and the number that make answered.
pub fn make(fan: u32, limit: u32, length: u32) -> (u32, Tree) {
    let mut tree = Tree::unmade(2, fan, limit);
    let number = make_in(&mut tree, fan, limit, length);
    (number, tree)
}

/// Makes a tree in those areas, whatever they hold.
pub fn make_in(tree: &mut Tree, fan: u32, limit: u32, length: u32) -> u32 {
    let (head, areas) = tree.changed();
    let number = reading::new(fan, limit, length, head, areas);
    assert!(tree.guarded(), "new");
    number
}

/// A split with any flag.
pub fn split(tree: &mut Tree, id: u32, length: u32, before: u32) -> Said {
    let (head, areas) = tree.changed();
    let said = one(reading::split(head, areas, id, length, before));
    assert!(tree.guarded(), "split");
    said
}

fn one(Number { number, value }: Number) -> Said {
    (number, [value, 0, 0])
}

impl Copies for Tree {
    /// The guards must be whole after it.
    fn play(&mut self, call: Call) -> Said {
        let said = match call {
            Call::Reset { .. } | Call::Insert { .. } | Call::Set { .. } => change(self, call),
            Call::Split { id, lengths, before } => split(self, id, lengths[EFFECT], before as u32),
            Call::Lookup { index, .. } => {
                let (head, areas) = self.looked();
                let r = reading::lookup(head, areas, index);
                (r.number, [r.id, r.offset, r.position])
            }
            _ => ask(self, call),
        };
        assert!(self.guarded(), "{call:?}");
        said
    }

    fn words(&self) -> [Vec<u32>; 4] {
        self.words()
    }
}

fn change(tree: &mut Tree, call: Call) -> Said {
    let (head, areas) = tree.changed();
    match call {
        Call::Reset { lengths } => (reading::reset(head, areas, lengths[EFFECT]), [0; 3]),
        Call::Insert { before, lengths } => {
            let r = reading::insert(head, areas, before, lengths[EFFECT]);
            (r.number, [r.id, r.position, 0])
        }
        Call::Set { id, lengths } => (reading::set(head, areas, id, lengths[EFFECT]), [0; 3]),
        _ => unreachable!("it changes nothing"),
    }
}

fn ask(tree: &Tree, call: Call) -> Said {
    let (head, areas) = (tree.head.words(), tree.areas());
    one(match call {
        Call::Rank { id, .. } => reading::rank(head, areas, id),
        Call::Next { id } => reading::next(head, areas, id),
        Call::Compare { first, second } => reading::compare(head, areas, first, second),
        _ => unreachable!("the copy has no such call"),
    })
}

fn said(reply: Result<[u32; 3], Refusal>) -> Said {
    reply.map_or_else(|refusal| (refusal.number, [0; 3]), |values| (0, values))
}

fn order(stands: std::cmp::Ordering) -> [u32; 3] {
    [(stands as i32 + 1) as u32, 0, 0]
}

/// `host/smelvock`'s own calls.
impl<const N: usize> Copies for ReadingCopy<N> {
    fn play(&mut self, call: Call) -> Said {
        said(match call {
            Call::Reset { lengths } => self.reset(lengths[EFFECT]).map(|()| [0; 3]),
            Call::Insert { before, lengths } => {
                let before = (before != NONE).then_some(before);
                self.insert(before, lengths[EFFECT]).map(|(id, position)| [id, position, 0])
            }
            Call::Split { id, lengths, before } => self.split(id, lengths[EFFECT], before).map(|id| [id, 0, 0]),
            Call::Set { id, lengths } => self.set(id, lengths[EFFECT]).map(|()| [0; 3]),
            Call::Lookup { index, .. } => self.lookup(index).map(|(id, offset, position)| [id, offset, position]),
            Call::Rank { id, .. } => self.rank(id).map(|position| [position, 0, 0]),
            Call::Next { id } => self.next(id).map(|id| [id.unwrap_or(NONE), 0, 0]),
            Call::Compare { first, second } => self.compare(first, second).map(order),
            _ => unreachable!("the copy has no such call"),
        })
    }

    /// Behind the words in use, which alone are known, the areas are filled up.
    fn words(&self) -> [Vec<u32>; 4] {
        let (head, areas) = (self.head(), self.areas());
        let [nodes, homes] = needed(2, N as u32, head[word::LIMIT]);
        let words = [(&head[..], 36), (areas.leaves, nodes), (areas.inners, nodes), (areas.homes, homes)];
        words.map(|(known, all)| known.iter().copied().chain([LENT].into_iter().cycle()).take(all).collect())
    }
}

/// The same call of the full tree, where the copy has it: lookups and ranks in the effect view.
pub fn there(call: Call) -> Option<Call> {
    Some(match call {
        Call::Lookup { index, .. } => Call::Lookup { view: EFFECT, index },
        Call::Rank { id, .. } => Call::Rank { view: EFFECT, id },
        Call::Update { id, lengths } => Call::Set { id, lengths },
        Call::Reset { .. } | Call::Insert { .. } | Call::Split { .. } | Call::Set { .. } => call,
        Call::Next { .. } | Call::Compare { .. } => call,
        _ => return None,
    })
}

/// The same call with the effect length alone: its other lengths are zero.
pub fn alone(call: Call) -> Call {
    let only = |lengths: [u32; 3]| [0, lengths[EFFECT], 0];
    match call {
        Call::Reset { lengths } => Call::Reset { lengths: only(lengths) },
        Call::Insert { before, lengths } => Call::Insert { before, lengths: only(lengths) },
        Call::Split { id, lengths, before } => Call::Split { id, lengths: only(lengths), before },
        Call::Set { id, lengths } => Call::Set { id, lengths: only(lengths) },
        call => call,
    }
}

fn of_row(answer: Answer) -> Said {
    let [x, y, z, _] = answer.fields;
    (answer.number.into(), [x, y, z])
}

/// The full tree's state whose other lengths are all zero: each slot has two words 0 more, and a finger, whose sums are those of the one
/// view three times over, is one of the effect view. What is left over of an area that isn't whole nodes is dropped; a fan outside its
/// values has no nodes.
pub fn widened([head, leaves, inners, homes]: [Vec<u32>; 4]) -> State {
    let mut words: raw::Head = head.try_into().expect("thirty-six words");
    words[word::SEATED] = 0;
    let mut head = head_of(words);
    if let Some(finger) = &mut head.finger {
        finger.view = finger.view.wrapping_add(EFFECT as u32);
        finger.prepare = finger.prepare.wrapping_sub(finger.effect);
        finger.prepare_within = finger.prepare_within.wrapping_sub(finger.effect_within);
    }
    let wide = |area: Vec<u32>| -> Vec<u32> {
        if !(4..=32).contains(&head.fan) {
            return Vec::new();
        }
        area.chunks_exact(node_words(head.fan)).flat_map(wide_node).collect()
    };
    State { head, leaves: wide(leaves), inners: wide(inners), homes }
}

fn wide_node(node: &[u32]) -> Vec<u32> {
    let slots = node[3..].as_chunks().0.iter().flat_map(|&[child, length]| [child, 0, length, 0]);
    node[..3].iter().copied().chain(slots).collect()
}

/// Whether the words are a sound tree, by document 01's tests on the widened state.
pub fn is_sound(words: [Vec<u32>; 4]) -> bool {
    words[0][word::PRESENT] <= 1 && audit(&widened(words)) == Verdict::Yes
}

/// A list of calls on the copy, and with the effect lengths alone on the row and on lib.rs.
#[derive(Clone)]
pub struct Alone<const N: usize, P> {
    pub copy: P,
    pub row: Row,
    lined: Lined<N>,
}

impl<const N: usize, P: Copies> Alone<N, P> {
    /// The copy has just been made with that limit and one entry of that length.
    pub fn new(copy: P, limit: u32, length: u32) -> Self {
        Alone { copy, row: Row::make(limit, [0, length, 0]), lined: Lined::make(limit, [0, length, 0]) }
    }

    /// What the row answers, which stays as it is.
    fn wanted(&self, call: Call) -> Said {
        of_row(self.row.clone().answer(Some(alone(call))))
    }

    /// Makes the call. Number and values must be the row's, and a refused call leaves every word. What is left is compared where
    /// `compared`.
    pub fn play(&mut self, call: Call, compared: bool) -> Result<Said, Parted> {
        let before = if compared { Some(self.copy.words()) } else { None };
        let wanted = of_row(self.row.answer(Some(alone(call))));
        let said = self.copy.play(call);
        let parted = |what: &str| format!("N {N}, {call:?}: {what}: {said:?}, row {wanted:?}");
        if said != wanted {
            return Err(parted("answer"));
        }
        if said.0 != 0 {
            let left = before.is_none_or(|before| before == self.copy.words());
            return left.then_some(said).ok_or_else(|| parted("a refused call changed a word"));
        }
        self.follow(alone(call));
        if compared {
            self.compare().map_err(|what| parted(&what))?;
        }
        Ok(said)
    }

    /// The call on lib.rs, where it changes something, the finger too.
    fn follow(&mut self, call: Call) {
        let tree = &mut self.lined;
        match call {
            Call::Reset { lengths } => tree.reset(lengths),
            Call::Insert { before, lengths } => {
                let before = (before != NONE).then(|| tree.cursor(before));
                tree.insert(before, lengths);
            }
            Call::Split { id, lengths, before } => {
                tree.split_entry(tree.cursor(id), lengths, before);
            }
            Call::Set { id, lengths } => tree.set_lengths(tree.cursor(id), lengths),
            Call::Lookup { index, .. } => {
                tree.locate(EFFECT, index);
            }
            _ => {}
        }
    }

    /// Head and words in use are lib.rs's; the entries are the row's; the tree is sound.
    fn compare(&self) -> Result<(), String> {
        let words = self.copy.words();
        if !is_sound(words.clone()) {
            return Err("unsound".into());
        }
        let state = widened(words);
        let entries = slots_of(&state).into_iter().map(|[id, lengths @ ..]| Entry { id, lengths }).collect::<Vec<_>>();
        if entries != self.row.entries {
            return Err(format!("entries {entries:?}, row {:?}", self.row.entries));
        }
        if state.head != self.lined.head() {
            return Err(format!("head {:?}, lib.rs {:?}", state.head, self.lined.head()));
        }
        let used = self.lined.used();
        let same = [&state.leaves, &state.inners, &state.homes]
            .into_iter()
            .zip(&used)
            .all(|(area, used)| area.starts_with(used));
        same.then_some(()).ok_or_else(|| format!("words {state:?}, lib.rs {used:?}"))
    }
}

/// A call on the full tree: `cursor(id)` and the call of its kind; and how many slots a lookup examined.
pub fn on_full<const N: usize>(tree: &mut PrepareEffectTree<N>, call: Call) -> (Said, u32) {
    match call {
        Call::Lookup { index, .. } => {
            let found = full_lookup(tree, index);
            (said(found.map(|(values, _)| values)), found.map_or(0, |(_, examined)| examined))
        }
        _ => (said(full_reply(tree, call)), 0),
    }
}

fn full_lookup<const N: usize>(tree: &mut PrepareEffectTree<N>, index: u32) -> Result<([u32; 3], u32), Refusal> {
    let (at, offset, position, _, examined) = tree.locate(View::Effect, index)?;
    Ok(([tree.id(at)?, offset, position], examined))
}

fn full_reply<const N: usize>(tree: &mut PrepareEffectTree<N>, call: Call) -> Result<[u32; 3], Refusal> {
    let of = |[prepare, effect, lines]: [u32; 3]| Lengths { prepare, effect, lines };
    // by id 10 comes before 4, so that any cursor does where there are too many line ends
    let overlong = call.lengths().is_some_and(|lengths| lengths[LINES] > MOST_LINES);
    let at = |tree: &PrepareEffectTree<N>, id| -> Result<Cursor, Refusal> {
        if overlong {
            tree.first()
        } else {
            tree.cursor(id)
        }
    };
    Ok(match call {
        Call::Reset { lengths } => tree.reset(of(lengths)).map(|()| [0; 3])?,
        Call::Insert { before, lengths } => {
            let before = if before == NONE { None } else { Some(at(tree, before)?) };
            tree.insert(before, of(lengths)).map(|(id, position)| [id, position, 0])?
        }
        Call::Split { id, lengths, before } => {
            let at = at(tree, id)?;
            tree.split_entry(at, of(lengths), before).map(|(id, _)| [id, 0, 0])?
        }
        Call::Set { id, lengths } => {
            let at = at(tree, id)?;
            tree.set_lengths(at, of(lengths)).map(|()| [0; 3])?
        }
        Call::Rank { id, .. } => [tree.entry_to_char_index(View::Effect, tree.cursor(id)?)?, 0, 0],
        Call::Next { id } => {
            let next = tree.next(tree.cursor(id)?)?;
            [next.map_or(Ok(NONE), |at| tree.id(at))?, 0, 0]
        }
        Call::Compare { first, second } => order(tree.cmp(tree.cursor(first)?, tree.cursor(second)?)?),
        _ => unreachable!("the copy has no such call"),
    })
}

/// Whether the number that a call gets there, on a tree of that row, is on account of another length: 10, or 6 or 7 where the effect length
/// gives no cause.
pub fn other(row: &Row, call: Call, number: u32) -> bool {
    let own = |id| row.place(id).map_or(0, |place| row.entries[place].lengths[EFFECT]) as u64;
    let with = |lengths: [u32; 3]| row.total(EFFECT) as u64 + lengths[EFFECT] as u64;
    let fits = match call {
        Call::Insert { lengths, .. } => with(lengths) <= u32::MAX as u64,
        Call::Set { id, lengths } => with(lengths) - own(id) <= u32::MAX as u64,
        Call::Split { id, lengths, .. } => lengths[EFFECT] as u64 <= own(id),
        _ => true,
    };
    number == 10 || (number == 6 || number == 7) && fits
}

/// What a call of a list comes to.
#[derive(Clone, Copy, PartialEq, Eq, Debug)]
pub enum Came {
    /// Both trees answered that number, and the same values.
    Same(u32),
    /// The proviso leaves it out; the numbers there and here. It is no call of the list: both trees stay as they were.
    LeftOut(u32, u32),
}

/// The full tree with its row, and the copy.
pub struct Pair<const N: usize, P> {
    pub full: PrepareEffectTree<N>,
    pub row: Row,
    pub copy: Alone<N, P>,
}

impl<const N: usize, P: Copies> Pair<N, P> {
    /// The copy has just been made with that limit and the effect length of the three.
    pub fn new(copy: P, limit: u32, first: [u32; 3]) -> Self {
        let [prepare, effect, lines] = first;
        let full = PrepareEffectTree::with_limit(limit, Lengths { prepare, effect, lines }).expect("a good make");
        Pair { full, row: Row::make(limit, first), copy: Alone::new(copy, limit, effect) }
    }

    /// Makes the call on both, where the proviso holds of it. Each tree's answer must be its row's, and the copy's that of the full tree.
    /// A number on account of another length must be another here. What the full tree's lookups examine is compared with lib.rs's tree
    /// beside the copy: nodes and finger stand in both as they do there.
    pub fn play(&mut self, call: Call, compared: bool) -> Result<Came, Parted> {
        let [there, here] = [of_row(self.row.clone().answer(Some(call))), self.copy.wanted(call)].map(|said| said.0);
        if here == 17 || other(&self.row, call, there) {
            let (mut full, mut copy) = (self.full.clone(), self.copy.clone());
            let numbers = [on_full(&mut full, call).0 .0, copy.play(call, compared)?.0];
            return if numbers == [there, here] && (here == 17 || here != there) {
                Ok(Came::LeftOut(there, here))
            } else {
                Err(format!("N {N}, {call:?} is left out, {numbers:?}, rows {there}, {here}"))
            };
        }
        let (full, examined) = on_full(&mut self.full, call);
        let wanted = of_row(self.row.answer(Some(call)));
        if full != wanted {
            return Err(format!("N {N}, {call:?}: full tree {full:?}, row {wanted:?}"));
        }
        let copy = self.copy.play(call, compared)?;
        let looked = if full.0 == 0 && matches!(call, Call::Lookup { .. }) {
            self.copy.lined.looked
        } else {
            Examined::default()
        };
        if examined != looked.slots || !looked.within() {
            return Err(format!("N {N}, {call:?}: {examined} slots examined, by lib.rs's words {looked:?}"));
        }
        (copy == full).then_some(Came::Same(full.0)).ok_or_else(|| format!("N {N}, {call:?}: {copy:?}, full {full:?}"))
    }
}
