//! How many slots lookups examine, beside lib.rs's own words and within the bounds, on trees of every height that a limit allows: as low on
//! entries as they can be, grown by calls, and full, where the bounds are met. Wrong counts are found out.

use beside::any_cursor::{Beside, List, Style};
use beside::exports::{Answer, Export, Given, Tree};
use beside::plays::Plays;
use beside::words::{head_of, on_zeros, tree_of};
use oracle::audit::{audit, Verdict};
use oracle::examined::{by_entries, by_levels, deepest, Examined};
use oracle::random::Random;
use oracle::rust::{pair, side};
use oracle::state::{node_words, Finger};
use oracle::tree::{Cursor, PrepareEffectTree};
use smelvock::raw::word::FAN;

const LIMIT: u32 = 65_536;

/// lib.rs's tree of entries (1, 2) and the port's of the same words.
struct Looked<const N: usize> {
    rust: PrepareEffectTree<N>,
    port: smelvock::PrepareEffectTree<N>,
}

impl<const N: usize> Looked<N> {
    fn at(rust: PrepareEffectTree<N>) -> Self {
        let state = rust.state(LIMIT, &[]);
        assert_eq!(audit(&state), Verdict::Yes);
        Looked { rust, port: tree_of(state) }
    }

    /// Looks a position up on both. The port's count is what lib.rs's words make it, within the bounds.
    fn look(&mut self, view: usize, index: u32) -> u32 {
        let finger = self.rust.head(LIMIT).finger;
        let (at, ..) = self.rust.locate(side(view), index);
        let looked = Examined::of(&self.rust, finger, (view, index), at.fields());
        let (.., slots) = self.port.locate(beside::port::side(view), index).expect("lib.rs finds it");
        assert_eq!(slots, looked.slots, "N {N}, position {index} of view {view}");
        assert!(looked.within(), "N {N}, position {index} of view {view}: {looked:?}");
        assert_eq!(head_of(self.port.head()).finger, self.rust.head(LIMIT).finger);
        slots
    }

    /// Lookups at random, close by, and from the first entry to the last and back; answers the most slots.
    fn most(&mut self, random: &mut Random) -> u32 {
        let mut most = 0;
        for turn in 0..60 {
            let view = random.below(2) as usize;
            let total = self.rust.len() as u32 * (view as u32 + 1);
            let index = random.below(total as u64) as u32;
            let near = (index + random.below(8) as u32).min(total - 1);
            let pair = if turn % 4 == 0 { [0, total - 1] } else { [index, near] };
            pair.into_iter().chain([pair[0]]).for_each(|index| most = most.max(self.look(view, index)));
        }
        most
    }

    fn levels(&self) -> u32 {
        self.rust.head(LIMIT).levels
    }

    fn say(&self, what: &str, most: u32) {
        let head = self.rust.head(LIMIT);
        let [levels, entries] = [head.levels, head.entry_count];
        println!(
            "N {N}, {what}: {levels} levels, {entries} entries, at most {most} slots of {} and {}",
            by_levels(&head),
            by_entries(&head)
        );
    }
}

/// Trees with half as many slots in each node as it may have, two in the root: as few entries as there are to so many levels, and as many
/// levels as there are to so many entries.
fn lowest<const N: usize>(random: &mut Random) -> u32 {
    let levels = deepest(N as u32 / 2, LIMIT);
    for levels in 1..=levels {
        let mut tree = Looked::at(PrepareEffectTree::<N>::even(levels, N / 2, 2, pair([1, 2])));
        assert_eq!([tree.levels(), deepest(N as u32 / 2, tree.rust.len() as u32)], [levels; 2], "N {N}");
        let most = tree.most(random);
        tree.say("lowest", most);
    }
    levels
}

#[test]
fn trees_of_every_height() {
    let mut random = Random::new(14);
    assert_eq!(lowest::<4>(&mut random), 15);
    assert_eq!(lowest::<5>(&mut random), 15);
    assert_eq!(lowest::<8>(&mut random), 7);
    assert_eq!(lowest::<9>(&mut random), 7);
    assert_eq!(lowest::<31>(&mut random), 3);
    assert_eq!(lowest::<32>(&mut random), 3);
}

/// Trees grown at the end or at random places, each as it gets a level more and as it is in the end.
fn grown<const N: usize>(at_end: bool, random: &mut Random) -> u32 {
    let mut rust = PrepareEffectTree::<N>::new(pair([1, 2]));
    let mut met = 0;
    for entries in 2..=LIMIT {
        let before = (!at_end).then(|| rust.cursor(random.below(entries as u64 - 1) as u32));
        rust.insert(before, pair([1, 2]));
        if rust.head(LIMIT).levels > met || entries == LIMIT {
            let mut tree = Looked::at(rust.clone());
            met = tree.levels();
            let most = tree.most(random);
            tree.say(if at_end { "grown at the end" } else { "grown at random" }, most);
        }
    }
    met
}

/// Fifteen levels take 65,536 entries with every node half full, which the node that an entry went into last isn't.
#[test]
fn trees_that_grow() {
    let mut random = Random::new(41);
    assert_eq!([grown::<4>(true, &mut random), grown::<5>(true, &mut random)], [14; 2]);
    for at_end in [true, false] {
        grown::<8>(at_end, &mut random);
        grown::<32>(at_end, &mut random);
    }
    grown::<4>(false, &mut random);
}

/// With the finger in the first slot of the first leaf, the last position of a full tree takes fan x (levels + 2) slots; and back through
/// its leaf takes fan.
fn worst<const N: usize>(mut tree: Looked<N>) {
    let (fan, entries, levels) = (N as u32, tree.rust.len() as u32, tree.levels());
    assert_eq!(tree.look(0, 0), levels + 1, "from the root: a slot in each node");
    let most = tree.look(0, entries - 1);
    assert_eq!(most, fan * (levels + 2), "N {N}");
    assert_eq!(tree.look(0, entries - fan), fan, "N {N}: back through the whole leaf");
    assert_eq!(tree.look(0, entries - 1), fan, "N {N}: and on");
    tree.say("full", most);
}

/// Full trees of every height that a limit allows; those of one level are made by calls too.
fn full<const N: usize>() {
    let levels = (1..).take_while(|&levels| (N as u32).pow(levels + 1) <= LIMIT);
    levels.for_each(|levels| worst(Looked::at(PrepareEffectTree::<N>::even(levels, N, N, pair([1, 2])))));
    let mut rust = PrepareEffectTree::<N>::new(pair([1, 2]));
    while rust.len() < N * N {
        // once there are enough leaves, into one that has room
        let head = rust.head(LIMIT);
        let room = (0..head.leaf_count).find(|&leaf| head.leaf_count == head.fan && rust.leaf_len(leaf) < head.fan);
        rust.insert(room.map(|leaf| Cursor::standing(leaf, 0)), pair([1, 2]));
    }
    worst(Looked::at(rust));
}

#[test]
fn the_bounds_are_met() {
    full::<4>();
    full::<5>();
    full::<8>();
    full::<32>();
}

type Wrong = fn(Counted) -> u32;

/// A lookup that was answered: its count, the finger that served it, whether that leaf held the position, the leaf's len, and the slot
/// found.
#[derive(Clone, Copy)]
struct Counted {
    slots: u32,
    finger: Option<Finger>,
    near: bool,
    len: u32,
    found: u32,
}

impl Counted {
    fn back(self) -> u32 {
        self.finger.filter(|_| self.near).map_or(0, |finger| finger.slot.saturating_sub(self.found))
    }

    /// What the finger examined in vain.
    fn vain(self) -> u32 {
        self.finger.filter(|_| !self.near).map_or(0, |finger| self.len - finger.slot)
    }

    /// What was examined from the root.
    fn down(self) -> u32 {
        if self.near {
            0
        } else {
            self.slots - self.vain()
        }
    }
}

/// The exports with a wrong count.
struct StandIn {
    tree: Tree,
    wrong: Wrong,
    refused: u32,
}

impl Plays for StandIn {
    fn play(&mut self, export: Export, given: &Given) -> Answer {
        let head = head_of(self.tree.head.words().try_into().expect("thirty-six words"));
        let mut answer = export.play(&mut self.tree, given);
        if ![Export::Locate, Export::CharIndexToEntry].contains(&export) {
            return answer;
        }
        let [leaf, found] = [answer.values[0], answer.values[1]];
        let finger = head.finger.filter(|finger| finger.view == given.view && finger.start <= given.index);
        let near = finger.is_some_and(|finger| finger.leaf == leaf);
        let node = finger.map_or(0, |finger| finger.leaf as usize * node_words(self.tree.word(FAN)));
        let len = self.tree.leaves.words()[node];
        let slots = answer.values.last_mut().expect("the count is the last");
        let counted = Counted { slots: *slots, finger, near, len, found };
        *slots = if answer.number == 0 { (self.wrong)(counted) } else { self.refused };
        answer
    }

    fn words(&self) -> [Vec<u32>; 4] {
        self.tree.words()
    }
}

const WRONG: [(&str, Wrong); 8] = [
    ("the finger's own slot not counted", |of| of.slots - of.near as u32),
    ("the leaf left out", |of| of.slots - if of.near { 0 } else { of.found + 1 }),
    ("the walk in vain forgotten", |of| of.slots - of.vain()),
    ("back counted twice", |of| of.slots + of.back()),
    ("in vain from the leaf's first slot", |of| of.slots + if of.vain() > 0 { of.len - of.vain() } else { 0 }),
    ("the walk in vain without the leaf's last", |of| of.slots - (of.vain() > 0) as u32),
    ("from the root without the slots taken", |of| of.slots - (of.down() > 0) as u32),
    ("0 always", |_| 0),
];

fn play(wrong: Wrong, refused: u32) -> Result<(), String> {
    let style = Style { name: "can fail", limit: 120, reset_every: 1_000 };
    let tree = Tree::of(&on_zeros::<4>(style.limit, [2, 1, 1]));
    let beside = Beside::<4, _>::new(StandIn { tree, wrong, refused }, style.limit, [2, 1, 1]);
    List::new(beside, style, 5, 1).play(4_000)
}

#[test]
fn wrong_counts_are_found_out() {
    for (name, wrong) in WRONG {
        let parted = play(wrong, 0).expect_err(name);
        assert!(parted.contains("lib.rs answers"), "{name}: {parted}");
        println!("{name}: {parted}");
    }
    let parted = play(|of| of.slots, 1).expect_err("a refused lookup that counts");
    assert!(parted.contains("a value beside a refusal"), "{parted}");
    assert_eq!(play(|of| of.slots, 0), Ok(()), "what is not wrong passes");
}

/// A bound with a level less, or without the leaf, is passed.
#[test]
fn smaller_bounds_are_passed() {
    let mut tree = Looked::at(PrepareEffectTree::<4>::even(3, 4, 4, pair([1, 2])));
    tree.look(0, 0);
    let most = tree.look(0, 255);
    let head = tree.rust.head(LIMIT);
    assert!(most > head.fan * (head.levels + 1) && most == by_levels(&head));
    assert!(!Examined { slots: most, most: most - 1 }.within());
}
