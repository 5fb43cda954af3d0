//! The planning tree's exports on words that may be any, with guards around them, and lists of its calls: on the port, on the plain row
//! with bounds, and on lib.rs, whose prepare lengths are the lowest and whose effect lengths are the highest.

use crate::exports::{needed, Tree, LENT};
use crate::words::{head_of, slots_of};
use oracle::audit::{audit, Verdict};
use oracle::calls::Calls;
use oracle::driver::Parted;
use oracle::lined::Lined;
use oracle::planning::{Bounds, Call, Entry, Row, Said};
use oracle::state::{State, EFFECT, NONE, PREPARE};
use smelvock::raw::{self, planning, word, AreasMut, Number};
use smelvock::{PlanningTree, Refusal};

/// What the calls are made on.
pub trait Plans {
    fn play(&mut self, call: Call) -> Said;
    /// Number and verdict.
    fn audit(&self) -> [u32; 2];
    /// Head, leaves, inner nodes, homes.
    fn words(&self) -> [Vec<u32>; 4];
}

/// The words of a node.
pub fn node_words(fan: u32) -> usize {
    3 + 3 * fan as usize
}

/// A tree made on areas as long as the limit needs, with those bounds for its entry, and the number that make answered.
pub fn make(fan: u32, limit: u32, bounds: Bounds) -> (u32, Tree) {
    let mut tree = Tree::unmade(3, fan, limit);
    let number = make_in(&mut tree, fan, limit, bounds);
    (number, tree)
}

/// Makes a tree in those areas, whatever they hold.
pub fn make_in(tree: &mut Tree, fan: u32, limit: u32, Bounds { low, high }: Bounds) -> u32 {
    let (head, areas) = tree.changed();
    let number = planning::new(fan, limit, low, high, head, areas);
    assert!(tree.guarded(), "new");
    number
}

/// A split with any flag.
pub fn split(tree: &mut Tree, id: u32, Bounds { low, high }: Bounds, before: u32) -> Said {
    let (head, areas) = tree.changed();
    let said = one(planning::split(head, areas, id, low, high, before));
    assert!(tree.guarded(), "split");
    said
}

fn one(Number { number, value }: Number) -> Said {
    (number, [value, 0])
}

impl Plans for Tree {
    /// The guards must be whole after it.
    fn play(&mut self, call: Call) -> Said {
        let said = match call {
            Call::Reset { .. } | Call::Insert { .. } | Call::Set { .. } => {
                let (head, areas) = self.changed();
                change(head, areas, call)
            }
            Call::Split { id, bounds, before } => split(self, id, bounds, before as u32),
            Call::FirstAt { position } => {
                let (head, areas) = self.looked();
                one(planning::first_at(head, areas, position))
            }
            Call::LastAt { position } => {
                let (head, areas) = self.looked();
                one(planning::last_at(head, areas, position))
            }
            _ => read(self, call),
        };
        assert!(self.guarded(), "{call:?}");
        said
    }

    fn audit(&self) -> [u32; 2] {
        let Number { number, value } = planning::audit(self.head.words(), self.areas());
        [number, value]
    }

    fn words(&self) -> [Vec<u32>; 4] {
        self.words()
    }
}

fn change(head: &mut [u32], areas: AreasMut<'_>, call: Call) -> Said {
    match call {
        Call::Reset { bounds: Bounds { low, high } } => (planning::reset(head, areas, low, high), [0; 2]),
        Call::Insert { before, bounds: Bounds { low, high } } => {
            let r = planning::insert(head, areas, before, low, high);
            (r.number, [r.id, r.position])
        }
        Call::Set { id, bounds: Bounds { low, high } } => (planning::set(head, areas, id, low, high), [0; 2]),
        _ => unreachable!("it changes nothing"),
    }
}

fn read(tree: &Tree, call: Call) -> Said {
    let (head, areas) = (tree.head.words(), tree.areas());
    match call {
        Call::Lengths { id } => {
            let r = planning::lengths(head, areas, id);
            (r.number, [r.lowest, r.highest])
        }
        Call::Count => one(planning::count(head, areas)),
        Call::Next { id } => one(planning::next(head, areas, id)),
        Call::Earliest { id } => one(planning::earliest(head, areas, id)),
        Call::Latest { id } => one(planning::latest(head, areas, id)),
        _ => unreachable!("it changes something"),
    }
}

/// `host/smelvock`'s own calls.
impl<const N: usize> Plans for PlanningTree<N> {
    fn play(&mut self, call: Call) -> Said {
        let of = |Bounds { low, high }: Bounds| smelvock::Bounds { lowest: low, highest: high };
        let done = match call {
            Call::Reset { bounds } => self.reset(of(bounds)).map(|()| [0; 2]),
            Call::Insert { before, bounds } => {
                let before = (before != NONE).then_some(before);
                self.insert(before, of(bounds)).map(|(id, position)| [id, position])
            }
            Call::Split { id, bounds, before } => self.split(id, of(bounds), before).map(|id| [id, 0]),
            Call::Set { id, bounds } => self.set(id, of(bounds)).map(|()| [0; 2]),
            Call::Lengths { id } => self.lengths(id).map(|bounds| [bounds.lowest, bounds.highest]),
            Call::Count => self.count().map(|count| [count as u32, 0]),
            Call::Next { id } => self.next(id).map(|id| [id.unwrap_or(NONE), 0]),
            Call::Earliest { id } => self.earliest(id).map(|position| [position, 0]),
            Call::Latest { id } => self.latest(id).map(|position| [position, 0]),
            Call::FirstAt { position } => self.first_at(position).map(|id| [id, 0]),
            Call::LastAt { position } => self.last_at(position).map(|id| [id, 0]),
        };
        done.map_or_else(|Refusal { number }| (number, [0; 2]), |values| (0, values))
    }

    fn audit(&self) -> [u32; 2] {
        self.audit().map_or_else(|Refusal { number }| [number, 0], |sound| [0, sound as u32])
    }

    /// Behind the words in use, which alone are known, the areas are filled up.
    fn words(&self) -> [Vec<u32>; 4] {
        let (head, areas) = (self.head(), self.areas());
        let [nodes, homes] = needed(3, N as u32, head[word::LIMIT]);
        let words = [(&head[..], 36), (areas.leaves, nodes), (areas.inners, nodes), (areas.homes, homes)];
        words.map(|(known, all)| known.iter().copied().chain([LENT].into_iter().cycle()).take(all).collect())
    }
}

/// The full tree's state with these lengths and no line ends: each slot has a word 0 more. What is left over of an area that isn't whole
/// nodes is dropped; a fan outside its values has no nodes.
pub fn widened([head, leaves, inners, homes]: [Vec<u32>; 4]) -> State {
    let mut words: raw::Head = head.try_into().expect("thirty-six words");
    words[word::SEATED] = 0;
    let head = head_of(words);
    let wide = |area: Vec<u32>| -> Vec<u32> {
        if !(4..=32).contains(&head.fan) {
            return Vec::new();
        }
        area.chunks_exact(node_words(head.fan)).flat_map(wide_node).collect()
    };
    State { head, leaves: wide(leaves), inners: wide(inners), homes }
}

fn wide_node(node: &[u32]) -> Vec<u32> {
    let slots = node[3..].as_chunks().0.iter().flat_map(|&[child, low, high]| [child, low, high, 0]);
    node[..3].iter().copied().chain(slots).collect()
}

/// What audit must answer: document 01's verdict on the widened state, and no for a finger of line ends, or for a lowest above a highest
/// in a leaf slot in use. A finger's flag that is neither 0 nor 1 is 10.
pub fn verdict(words: [Vec<u32>; 4]) -> [u32; 2] {
    if words[0][word::PRESENT] > 1 {
        return [10, 0];
    }
    let state = widened(words);
    match audit(&state) {
        Verdict::Refused(number) => [number as u32, 0],
        Verdict::No(_) => [0, 0],
        Verdict::Yes => {
            let in_order = |leaf: u32| state.leaf(leaf).used().all(|[_, low, high, _]| low <= high);
            let found = state.head.finger.is_none_or(|finger| finger.view < 2);
            [0, (found && (0..state.head.leaf_count).all(in_order)) as u32]
        }
    }
}

/// The entries of a sound tree in order.
pub fn entries_of(state: &State) -> Vec<Entry> {
    slots_of(state).into_iter().map(|[id, low, high, _]| Entry { id, bounds: Bounds { low, high } }).collect()
}

/// A list of calls on the port, on the row and on lib.rs.
#[derive(Clone)]
pub struct Beside<const N: usize, P> {
    pub port: P,
    pub row: Row,
    lined: Lined<N>,
}

impl<const N: usize, P: Plans> Beside<N, P> {
    /// The port has just been made with that limit and one entry of those bounds.
    pub fn new(port: P, limit: u32, bounds: Bounds) -> Self {
        let row = Row::make(limit, bounds).expect("the bounds are in order");
        Beside { port, row, lined: Lined::make(limit, three(bounds)) }
    }

    /// Makes the call. Number and values must be the row's, and a refused call leaves every word. What is left is compared where
    /// `compared`.
    pub fn play(&mut self, call: Call, compared: bool) -> Result<u32, Parted> {
        let before = if compared { Some(self.port.words()) } else { None };
        let wanted = self.row.answer(call);
        let said = self.port.play(call);
        let parted = |what: &str| format!("N {N}, {call:?}: {what}: {said:?}, row {wanted:?}");
        if said != wanted {
            return Err(parted("answer"));
        }
        if said.0 != 0 {
            return if before.is_some_and(|before| before != self.port.words()) {
                Err(parted("a refused call changed a word"))
            } else {
                Ok(said.0)
            };
        }
        self.follow(call);
        if compared {
            self.compare().map_err(|what| parted(&what))?;
        }
        Ok(0)
    }

    /// The call on lib.rs, where it changes something, the finger too.
    fn follow(&mut self, call: Call) {
        let tree = &mut self.lined;
        match call {
            Call::Reset { bounds } => tree.reset(three(bounds)),
            Call::Insert { before, bounds } => {
                let before = (before != NONE).then(|| tree.cursor(before));
                tree.insert(before, three(bounds));
            }
            Call::Split { id, bounds, before } => {
                tree.split_entry(tree.cursor(id), three(bounds), before);
            }
            Call::Set { id, bounds } => tree.set_lengths(tree.cursor(id), three(bounds)),
            Call::FirstAt { position } => {
                tree.locate(EFFECT, position);
            }
            Call::LastAt { position } => {
                let [low, high] = [PREPARE, EFFECT].map(|view| tree.row.total(view));
                if position < low {
                    tree.locate(PREPARE, position);
                } else {
                    tree.locate(EFFECT, high - 1);
                }
            }
            _ => {}
        }
    }

    /// Head and words in use are lib.rs's; the entries are the row's; both audits say yes.
    fn compare(&self) -> Result<(), String> {
        let words = self.port.words();
        if [self.port.audit(), verdict(words.clone())] != [[0, 1]; 2] {
            return Err("audit".into());
        }
        let state = widened(words);
        if entries_of(&state) != self.row.entries {
            return Err(format!("entries {:?}, row {:?}", entries_of(&state), self.row.entries));
        }
        if state.head != self.lined.head() {
            return Err(format!("head {:?}, lib.rs {:?}", state.head, self.lined.head()));
        }
        let used = self.lined.used();
        let same = [&state.leaves, &state.inners, &state.homes]
            .into_iter()
            .zip(&used)
            .all(|(area, used)| area.starts_with(used));
        same.then_some(()).ok_or_else(|| format!("words {state:?}, lib.rs {used:?}"))
    }
}

fn three(Bounds { low, high }: Bounds) -> [u32; 3] {
    [low, high, 0]
}
