//! Unsound planning trees: every call ends on them, writes in head and areas only (guards stand around each) and answers a number that it
//! may, and audit's verdict is document 01's on the words, and no for a lowest above a highest in a leaf slot in use.

use beside::damage::{change_some, flip_every_word, randomize};
use beside::exports::Tree;
use beside::planning::{make, make_in, node_words, verdict, Plans};
use oracle::fans::FANS;
use oracle::planning::{bounds, Bounds, Call};
use oracle::random::Random;
use oracle::state::NONE;
use smelvock::raw::word::{ENTRIES, FAN, INNERS, LEAVES, LIMIT, PRESENT};

const SCALE: u64 = if cfg!(debug_assertions) { 1 } else { 10 };

/// How often each number was answered, by 0 to 20, and how often audit said yes and no.
#[derive(Default, Debug)]
struct Met {
    numbers: [u64; 21],
    sound: u64,
    unsound: u64,
}

/// The numbers that a call of the planning tree may answer. 13 and 14 come on unsound trees alone, where the entry after another, or the
/// one found, isn't in a leaf or slot in use.
const NUMBERS: [u32; 14] = [0, 1, 2, 4, 5, 6, 7, 8, 9, 10, 13, 14, 17, 20];

fn sound(fan: u32, entries: u32) -> Tree {
    let (number, mut tree) = make(fan, entries + 3, bounds(1, 7));
    assert_eq!(number, 0);
    for id in 1..entries {
        let before = if id % 3 == 0 { NONE } else { id * 7 % id };
        let low = 1 + id % 5;
        assert_eq!(tree.play(Call::Insert { before, bounds: bounds(low, low + id % 4) }).0, 0);
    }
    assert_eq!(tree.play(Call::LastAt { position: entries }).0, 0);
    tree
}

fn audited(tree: &Tree, met: &mut Met) {
    let (answer, wanted) = (tree.audit(), verdict(tree.words()));
    assert_eq!(answer, wanted, "{tree:?}");
    met.sound += (wanted == [0, 1]) as u64;
    met.unsound += (wanted == [0, 0]) as u64;
}

/// Makes a call, on what the tree is then; a refusal other than 9 leaves everything, and 9 the head.
fn played(tree: &mut Tree, call: Call, met: &mut Met) {
    let before = tree.clone();
    let (number, values) = tree.play(call);
    let may_be_astray = matches!(call, Call::Next { .. } | Call::FirstAt { .. } | Call::LastAt { .. });
    assert!(NUMBERS.contains(&number) && (may_be_astray || ![13, 14].contains(&number)), "{call:?}: {number}");
    assert!(number == 0 || values == [0; 2], "{call:?}: {number} {values:?}");
    assert!(number == 0 || number == 9 || *tree == before, "{call:?}: {number} on {before:?}");
    assert!(number == 0 || tree.head == before.head, "{call:?}: {number} on {before:?}");
    assert!(number != 9 || !matches!(call, Call::Reset { .. }), "reset reads no link");
    met.numbers[number as usize] += 1;
}

/// Every call in the order of their kinds, with arguments that are often good.
fn calls(tree: &Tree, random: &mut Random) -> [Call; 11] {
    let mut small = |end: u32| random.below(end.clamp(1, 1 << 20) as u64 + 1) as u32;
    let mut own = || {
        let low = small(3);
        bounds(low, (low + small(3)).saturating_sub((small(15) == 0) as u32 * 4))
    };
    let given: [Bounds; 4] = [own(), own(), own(), own()];
    let mut id = || small(tree.word(ENTRIES));
    let [a, b, c, d, e, f, g] = [id(), id(), id(), id(), id(), id(), id()];
    [
        Call::Reset { bounds: given[0] },
        Call::Insert { before: if small(3) == 0 { NONE } else { a }, bounds: given[1] },
        Call::Split { id: b, bounds: given[2], before: small(1) == 0 },
        Call::Set { id: c, bounds: given[3] },
        Call::Lengths { id: d },
        Call::Count,
        Call::Next { id: e },
        Call::Earliest { id: f },
        Call::Latest { id: g },
        Call::FirstAt { position: small(200) },
        Call::LastAt { position: small(200) },
    ]
}

/// Every call once, each on the damaged tree itself, make too.
fn every_call(tree: &Tree, random: &mut Random, met: &mut Met) {
    calls(tree, random).into_iter().for_each(|call| played(&mut tree.clone(), call, met));
    let number = make_in(&mut tree.clone(), tree.word(FAN), tree.word(LIMIT), bounds(random.below(2) as u32, 1));
    assert!([0, 1, 2].contains(&number));
    audited(tree, met);
}

#[test]
fn every_single_flipped_word() {
    let mut met = Met::default();
    let trees: &[(u32, u32)] =
        if SCALE == 1 { &[(4, 9), (5, 12)] } else { &[(4, 9), (5, 12), (4, 30), (8, 30), (32, 40)] };
    for &(fan, entries) in trees {
        let mut random = Random::new(3);
        let flips = flip_every_word(sound(fan, entries), |tree| every_call(tree, &mut random, &mut met));
        println!("fan {fan}, {entries} entries: {flips} flips, every call after each");
    }
    println!("{met:?}");
    assert!(met.sound > 100 && met.unsound > 1_000, "{met:?}");
    assert!([0, 1, 2, 4, 5, 6, 9, 10, 17, 20].iter().all(|&number| met.numbers[number] > 0), "{met:?}");
}

/// Several words at once; then a chain of calls, each on what the one before left.
#[test]
fn chains_of_calls_on_damaged_trees() {
    let (mut met, mut random) = (Met::default(), Random::new(4));
    let trees = FANS.map(|fan| sound(fan, 34 + fan * 3 / 2));
    for _ in 0..2_000 * SCALE {
        let mut tree = trees[random.below(trees.len() as u64) as usize].clone();
        change_some(&mut tree, &mut random);
        for _ in 0..12 {
            let call = calls(&tree, &mut random)[1 + random.below(10) as usize];
            played(&mut tree, call, &mut met);
        }
        audited(&tree, &mut met);
    }
    println!("{met:?}");
    assert!(met.unsound > 1_000 && met.numbers[9] > 1_000, "{met:?}");
}

/// Areas of nothing but random words, and a head with good counts.
#[test]
fn nothing_but_random_words() {
    let (mut met, mut random) = (Met::default(), Random::new(5));
    for _ in 0..2_000 * SCALE {
        let fan = FANS[random.below(FANS.len() as u64) as usize];
        let mut tree = sound(fan, 12);
        let counts = [LEAVES, INNERS].map(|word| tree.word(word));
        randomize(&mut tree, &mut random);
        tree = tree.with(PRESENT, random.below(2) as u32).with(LEAVES, counts[0]).with(INNERS, counts[1]);
        every_call(&tree, &mut random, &mut met);
    }
    println!("{met:?}");
    assert!(met.numbers[9] > 1_000 && met.unsound > 1_000, "{met:?}");
}

/// Gives an entry those bounds, in its leaf and in every sum above it, and drops the finger: nothing else is wrong.
fn with_bounds(tree: &Tree, leaf: usize, slot: usize, own: Bounds) -> Tree {
    let mut tree = tree.with(PRESENT, 0);
    let node = node_words(tree.word(FAN));
    let old = &tree.leaves.words()[leaf * node + 3 + 3 * slot + 1..][..2];
    let more = [own.low.wrapping_sub(old[0]), own.high.wrapping_sub(old[1])];
    let (mut words, mut at) = (&mut tree.leaves.words_mut()[leaf * node..][..node], slot);
    loop {
        for (view, more) in more.into_iter().enumerate() {
            let sum = &mut words[3 + 3 * at + 1 + view];
            *sum = sum.wrapping_add(more);
        }
        let parent = words[1];
        if parent == NONE {
            return tree;
        }
        at = words[2] as usize;
        words = &mut tree.inners.words_mut()[parent as usize * node..][..node];
    }
}

/// A lowest above its highest in each leaf slot in use is unsound by that alone; equal ones, and any in order, are sound. Every call still
/// ends there and touches only what was lent.
#[test]
fn a_lowest_above_a_highest_in_a_leaf_slot() {
    let (mut met, mut slots, mut random) = (Met::default(), 0, Random::new(6));
    for fan in FANS {
        let tree = sound(fan, 34 + fan * 3 / 2);
        let node = node_words(fan);
        for leaf in 0..tree.word(LEAVES) as usize {
            for slot in 0..tree.leaves.words()[leaf * node] as usize {
                let tried =
                    [bounds(1, 0), bounds(9, 8), bounds(1 << 31, 7), bounds(0, 0), bounds(8, 8), bounds(0, 1 << 31)];
                for own in tried {
                    let tree = with_bounds(&tree, leaf, slot, own);
                    assert_eq!(
                        tree.audit(),
                        [0, !own.crossed() as u32],
                        "fan {fan}, leaf {leaf}, slot {slot}, {own:?}"
                    );
                    every_call(&tree, &mut random, &mut met);
                }
                slots += 1;
            }
        }
    }
    println!("{slots} leaf slots, each with three bounds out of order and three in order: {met:?}");
    assert_eq!([met.sound, met.unsound], [3 * slots; 2]);
}
