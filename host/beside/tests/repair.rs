//! Repair (document 02, CR 13) beside oracle's, which is written from the paper: answer, count and every word, on trees of every height,
//! with every kind of damage to what is rewritten, to what is trusted, to both and to neither; with seats and without, with guards
//! around head and areas. After it both audits say yes.

use beside::repair::kinds::KINDS;
use beside::repair::runs::{every_flip, every_kind, random, Names};
use beside::repair::trees::{heights, tree, trusted_alone};
use beside::repair::{compare, export, stored, Met};
use oracle::at_fan;
use oracle::fans::FANS;
use smelvock::raw::word::{ENTRIES, LEAVES, LEVELS};

const SCALE: u64 = if cfg!(debug_assertions) { 1 } else { 10 };

/// Every word of head and areas, the words behind what the limit needs among them, in trees of one, two and three levels.
#[test]
fn every_single_flipped_word() {
    let mut met = Met::default();
    let mut trees = vec![tree::<4>(1, true, false), tree::<4>(9, false, false), tree::<4>(9, false, true)];
    trees.extend([tree::<4>(14, true, false), tree::<5>(12, false, false)]);
    if SCALE > 1 {
        trees.extend([tree::<4>(40, true, true), tree::<5>(30, false, false), tree::<8>(30, false, true)]);
        trees.extend([tree::<31>(40, false, false), tree::<32>(40, false, true)]);
    }
    let mut flips = 0;
    for tree in trees {
        flips += every_flip(export, tree, &mut met).unwrap();
    }
    println!("{flips} flips: {met:?}");
    assert!(met.trees() == flips && met.none > 1_000 && met.some > 1_000 && met.unsound() > 500, "{met:?}");
    assert!(met.refused.iter().all(|&number| number > 0), "1, 2, 10, 21: {met:?}");
}

/// The kinds that are for trees without seats, or for trees with them.
const WITHOUT_SEATS: [&str; 1] = ["the seats' words in a tree without seats"];
const WITH_SEATS: [&str; 5] = [
    "a charge more",
    "a charge to another seat",
    "a share that the free entries don't cover",
    "another share",
    "shares that sum to the limit",
];

/// Every kind of damage at every fan, to trees of one level and of two or more.
#[test]
fn every_kind_of_damage() {
    let mut met = Met::default();
    for fan in FANS {
        for with_seats in [false, true] {
            let mut played = Names::new();
            for entries in [1, 2, 5, 17, 34 + fan * 3 / 2, 99, fan * (fan / 2 + 1)] {
                for at_end in [false, true] {
                    let tree = at_fan!(fan, N => tree::<N>(entries, at_end, with_seats));
                    let times = 4 * SCALE as u32;
                    played.extend(every_kind(export, &tree, times, fan as u64, &mut met).unwrap());
                }
            }
            let others = if with_seats { &WITHOUT_SEATS[..] } else { &WITH_SEATS };
            let all: Names = KINDS.iter().map(|&(name, ..)| name).filter(|name| !others.contains(name)).collect();
            assert_eq!(played, all, "fan {fan}, seats {with_seats}");
        }
    }
    println!("{} kinds: {met:?}", KINDS.len());
    assert!(met.some > 1_000 * SCALE && met.unsound() > 1_000 * SCALE, "{met:?}");
}

/// Every kind of damage at every height that a tree gets when 65,536 entries are put at its end, in the first tree that has it.
#[test]
fn trees_of_every_height() {
    for fan in FANS {
        let mut met = Met::default();
        let heights = at_fan!(fan, N => heights::<N>());
        for (&entries, levels) in heights.iter().zip(1..) {
            for with_seats in [false, true] {
                let tree = at_fan!(fan, N => tree::<N>(entries, true, with_seats));
                assert_eq!([tree.word(ENTRIES), tree.word(LEVELS)], [entries, levels]);
                let times = if entries < 1_000 { 2 * SCALE as u32 } else { 1 };
                every_kind(export, &tree, times, levels as u64, &mut met).unwrap();
            }
        }
        println!("fan {fan}: {} levels, {} entries, {met:?}", heights.len(), heights[heights.len() - 1]);
    }
}

/// Trees of which only the trusted words are there, of every height up to fifteen: a sound tree comes of them, and of no other words
/// than these.
#[test]
fn trusted_words_alone() {
    let mut met = Met::default();
    let mut most = 0;
    for fan in FANS {
        for levels in 1..=16 {
            let Some(tree) = trusted_alone(fan, levels) else { break };
            let answer = compare(export, &tree, &mut met).unwrap();
            assert_eq!(answer.number, 0, "fan {fan}, {levels} levels");
            assert!(answer.values[0] >= 2 * tree.word(LEAVES), "parents and places at least: {answer:?}");
            let fewer = tree.with(ENTRIES, tree.word(ENTRIES) - 1);
            assert_eq!(compare(export, &fewer, &mut met).unwrap().number, 21);
            most = most.max(levels);
        }
    }
    println!("up to {most} levels: {met:?}");
    assert_eq!(most, 15);
}

/// Some words of head and areas, then all words of the areas, drawn at random.
#[test]
fn random_words() {
    let mut met = Met::default();
    let mut trees = FANS.map(|fan| at_fan!(fan, N => tree::<N>(6, false, false))).to_vec();
    trees.extend(FANS.map(|fan| at_fan!(fan, N => tree::<N>(34 + N as u32 * 3 / 2, false, true))));
    random(export, &trees, 3_000 * SCALE, 4, &mut met).unwrap();
    println!("{met:?}");
    assert!(met.right() > 500 * SCALE && met.unsound() > 1_000 * SCALE, "{met:?}");
}

/// The same through `host/smelvock`, stored as bytes and loaded between.
#[test]
fn of_stored_trees() {
    let mut met = Met::default();
    for fan in FANS {
        for with_seats in [false, true] {
            let tree = at_fan!(fan, N => tree::<N>(40, false, with_seats));
            every_kind(stored, &tree, 2, 7, &mut met).unwrap();
        }
    }
    println!("{met:?}");
    assert!(met.some > 100 && met.unsound() > 100, "{met:?}");
}
