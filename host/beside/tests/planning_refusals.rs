//! Each cause of a refusal on the planning tree's exports: its number, zeros for values, head and areas as they were, with guards around
//! them. The numbers wanted are document 01's and document 02's 17 and 20, written down here.

use beside::exports::{Area, Tree};
use beside::planning::{make, make_in, split, Plans};
use oracle::fans::FANS;
use oracle::planning::{bounds, Bounds, Call};
use oracle::state::NONE;
use smelvock::raw::word::{FAN, LIMIT, PRESENT, ROOT, SEATED, SHARES};
use smelvock::{PlanningTree, Refusal};
use std::sync::atomic::{AtomicU64, Ordering};

/// Refusals played, over all tests of this file.
static PLAYED: AtomicU64 = AtomicU64::new(0);

const MOST: u32 = u32::MAX;

/// Thirty entries, id 7 of 3 to 7 characters, with room for one more and a finger in the highest lengths.
fn whole(fan: u32) -> Tree {
    let (number, mut tree) = make(fan, 31, bounds(2, 3));
    assert_eq!(number, 0);
    for id in 1..30 {
        let before = if id % 3 == 0 { NONE } else { id * 7 % id };
        let own = if id == 7 { bounds(3, 7) } else { bounds(id % 3, 2 + id % 4) };
        assert_eq!(tree.play(Call::Insert { before, bounds: own }).0, 0);
    }
    assert_eq!(tree.play(Call::FirstAt { position: 11 }).0, 0);
    assert!(tree.audit() == [0, 1] && tree.word(PRESENT) == 1);
    every_call().into_iter().for_each(|call| assert_eq!(tree.clone().play(call).0, 0, "fan {fan}, {call:?}"));
    tree
}

/// Each call, none of which [`whole`] refuses.
fn every_call() -> [Call; 11] {
    let (id, own) = (7, bounds(1, 2));
    [
        Call::Reset { bounds: own },
        Call::Insert { before: id, bounds: own },
        Call::Split { id, bounds: own, before: true },
        Call::Set { id, bounds: own },
        Call::Lengths { id },
        Call::Count,
        Call::Next { id },
        Call::Earliest { id },
        Call::Latest { id },
        Call::FirstAt { position: 12 },
        Call::LastAt { position: 12 },
    ]
}

fn at_each_fan(test: impl Fn(Tree)) {
    FANS.into_iter().for_each(|fan| test(whole(fan)));
    println!("{} refusals so far", PLAYED.load(Ordering::Relaxed));
}

fn refused(number: u32, tree: &Tree, call: Call) {
    let mut after = tree.clone();
    assert_eq!(after.play(call), (number, [0; 2]), "{call:?}");
    assert!(after == *tree, "{call:?} is refused by {number} and changes {tree:?} to {after:?}");
    PLAYED.fetch_add(1, Ordering::Relaxed);
}

/// Both flags.
fn refused_split(number: u32, tree: &Tree, id: u32, own: Bounds) {
    [false, true].into_iter().for_each(|before| refused(number, tree, Call::Split { id, bounds: own, before }));
}

fn insert(before: u32, own: Bounds) -> Call {
    Call::Insert { before, bounds: own }
}

fn set(id: u32, own: Bounds) -> Call {
    Call::Set { id, bounds: own }
}

/// The tree with an entry more, which holds its limit then.
fn full(tree: &Tree) -> Tree {
    let mut full = tree.clone();
    assert_eq!(full.play(insert(NONE, bounds(0, 0))), (0, [30, totals(tree)[1]]));
    full
}

fn totals(tree: &Tree) -> [u32; 2] {
    let own = (0..30).map(|id| tree.clone().play(Call::Lengths { id }).1);
    own.fold([0; 2], |sums, own| [sums[0] + own[0], sums[1] + own[1]])
}

/// Make on those areas: its number, and the head that it leaves. A refused one leaves the areas.
fn made(tree: &Tree, fan: u32, limit: u32, own: Bounds) -> (u32, Area) {
    let mut after = tree.clone();
    let number = make_in(&mut after, fan, limit, own);
    let head = after.head.clone();
    assert!(number == 0 || Tree { head: tree.head.clone(), ..after } == *tree, "fan {fan}, limit {limit}, {own:?}");
    PLAYED.fetch_add(1, Ordering::Relaxed);
    (number, head)
}

/// 10, 1, 2, 20, each with those after it; a head of thirty-six words is then zeros.
#[test]
fn make_is_refused_by_10_1_2_20() {
    let (crossed, zeros) = (bounds(1, 0), Area::new(&[0; 36]));
    at_each_fan(|tree| {
        let fan = tree.word(FAN);
        let bad = [(0, 31), (3, 31), (33, 31), (MOST, 31), (fan, 0), (fan, 65_537), (fan, MOST), (3, 0)];
        for (bad_fan, bad_limit) in bad {
            let short = Tree { homes: Area::new(&[]), ..tree.clone() };
            assert_eq!(made(&short, bad_fan, bad_limit, crossed), (1, zeros.clone()), "{bad_fan}, {bad_limit}");
        }
        for (short, own) in one_word_short(&tree).iter().flat_map(|short| [(short, crossed), (short, bounds(1, 1))]) {
            assert_eq!(made(short, fan, 31, own), (2, zeros.clone()));
        }
        for own in [crossed, bounds(MOST, 0), bounds(MOST, MOST - 1), bounds(9, 8)] {
            assert_eq!(made(&tree, fan, 31, own), (20, zeros.clone()), "{own:?}");
        }
        for words in [0, 19, 35, 37] {
            let head = Area::new(&vec![1; words]);
            let tree = Tree { head: head.clone(), homes: Area::new(&[]), ..tree.clone() };
            assert_eq!(made(&tree, 3, 0, crossed), (10, head));
        }
        assert_eq!(made(&tree, fan, 31, bounds(0, MOST)).0, 0);
    });
    let nothing = smelvock::Bounds::default();
    assert_eq!(PlanningTree::<3>::new(nothing), Err(Refusal::SIZE));
    assert_eq!(PlanningTree::<33>::new(nothing), Err(Refusal::SIZE));
}

/// Each area a word shorter than thirty-one entries need.
fn one_word_short(tree: &Tree) -> [Tree; 3] {
    let cut = |area: &Area| Area::new(&area.words()[1..]);
    [
        Tree { leaves: cut(&tree.leaves), ..tree.clone() },
        Tree { inners: cut(&tree.inners), ..tree.clone() },
        Tree { homes: cut(&tree.homes), ..tree.clone() },
    ]
}

/// 1 and 2 of the head that a call is lent; areas of a full tree's slots are longer and serve.
#[test]
fn every_call_on_a_bad_head_or_a_short_area() {
    at_each_fan(|tree| {
        for call in every_call() {
            for (word, value) in [(FAN, 0), (FAN, 3), (FAN, 33), (LIMIT, 0), (LIMIT, 65_537), (FAN, MOST)] {
                let bad = tree.with(word, value);
                refused(1, &bad, call);
                refused(1, &Tree { leaves: Area::new(&[]), ..bad }, call);
            }
            one_word_short(&tree).iter().for_each(|short| refused(2, short, call));
            let longer = [tree.leaves.words(), &[9]].concat();
            assert_eq!(Tree { leaves: Area::new(&longer), ..tree.clone() }.play(call).0, 0);
        }
        assert_eq!(tree.with(FAN, 3).audit(), [1, 0]);
        one_word_short(&tree).iter().for_each(|short| assert_eq!(short.audit(), [2, 0]));
    });
}

#[test]
fn an_id_not_below_the_number_of_entries_is_4() {
    at_each_fan(|tree| {
        for (count, tree) in [(30, tree.clone()), (31, full(&tree))] {
            for id in [count, count + 1, 65_536, MOST - 1, MOST] {
                for own in [bounds(1, 1), bounds(MOST, 0), bounds(0, MOST)] {
                    refused_split(4, &tree, id, own);
                    refused(4, &tree, set(id, own));
                    // the end is the exception
                    if id != NONE {
                        refused(4, &tree, insert(id, own));
                    }
                }
                let reads = [Call::Lengths { id }, Call::Next { id }, Call::Earliest { id }, Call::Latest { id }];
                reads.into_iter().for_each(|call| refused(4, &tree, call));
            }
            assert_eq!(tree.clone().play(Call::Lengths { id: count - 1 }).0, 0);
        }
    });
}

/// With and without a finger; the last position below the highest total is held.
#[test]
fn a_position_at_or_past_the_highest_total_is_5() {
    at_each_fan(|tree| {
        let [low, high] = totals(&tree);
        assert!(0 < low && low < high);
        for present in [0, 1] {
            let tree = tree.with(PRESENT, present);
            for position in [high, high + 1, 1 << 31, MOST - 1, MOST] {
                refused(5, &tree, Call::FirstAt { position });
                refused(5, &tree, Call::LastAt { position });
            }
            for position in [0, low - 1, low, high - 1] {
                assert_eq!(tree.clone().play(Call::FirstAt { position }).0, 0, "{position}");
                assert_eq!(tree.clone().play(Call::LastAt { position }).0, 0, "{position}");
            }
        }
        let (_, empty) = make(tree.word(FAN), 31, bounds(0, 0));
        [0, 1, MOST].into_iter().for_each(|position| refused(5, &empty, Call::FirstAt { position }));
        [0, 1, MOST].into_iter().for_each(|position| refused(5, &empty, Call::LastAt { position }));
    });
}

/// Id 7 has 3 to 7 characters. 6, 17 and 20 of what is moved and of what is left, and 8 behind them.
#[test]
fn splits() {
    at_each_fan(|tree| {
        for tree in [tree.clone(), full(&tree)] {
            for more in [
                bounds(4, 7),
                bounds(3, 8),
                bounds(4, 0),
                bounds(0, 8),
                bounds(MOST, 0),
                bounds(0, MOST),
                bounds(MOST, MOST),
            ] {
                refused_split(6, &tree, 7, more);
            }
            [bounds(0, 0), bounds(3, 7)].into_iter().for_each(|own| refused_split(17, &tree, 7, own));
            // given: 1 to 0, 3 to 2; left: 3 to 2, 3 to 0, 1 to 0
            for own in [bounds(1, 0), bounds(3, 2), bounds(3, 0), bounds(0, 5), bounds(0, 7), bounds(2, 7)] {
                refused_split(20, &tree, 7, own);
            }
        }
        for own in [bounds(0, 1), bounds(0, 4), bounds(1, 1), bounds(1, 5), bounds(3, 3), bounds(3, 6), bounds(2, 6)] {
            for before in [false, true] {
                let mut parted = tree.clone();
                assert_eq!(parted.play(Call::Split { id: 7, bounds: own, before }), (0, [30, 0]), "{own:?}");
                assert_eq!(parted.play(Call::Lengths { id: 30 }).1, [own.low, own.high]);
                assert_eq!(parted.play(Call::Lengths { id: 7 }).1, [3 - own.low, 7 - own.high]);
                let (first, second) = if before { (30, 7) } else { (7, 30) };
                assert_eq!((parted.play(Call::Next { id: first }).1[0], parted.audit()), (second, [0, 1]));
            }
            refused_split(8, &full(&tree), 7, own);
        }
    });
}

/// 4, 20, 7, 8: bounds that are out of order and would pass u32 as well are 20, whichever of the two they would pass with.
#[test]
fn out_of_order_is_20_directly_before_7() {
    at_each_fan(|tree| {
        let [low, high] = totals(&tree);
        // a lowest that passes, with a highest that passes too or doesn't
        let past =
            [bounds(MOST, MOST - 1), bounds(MOST - low + 1, MOST - high), bounds(MOST, 0), bounds(MOST, MOST - high)];
        for tree in [tree.clone(), full(&tree)] {
            for own in past.into_iter().chain([bounds(1, 0), bounds(8, 7), bounds(MOST - high + 1, MOST - high)]) {
                [0, 7, 29, NONE].into_iter().for_each(|before| refused(20, &tree, insert(before, own)));
                [0, 7, 29].into_iter().for_each(|id| refused(20, &tree, set(id, own)));
                refused(20, &tree, Call::Reset { bounds: own });
                [30 + 1, MOST - 1].into_iter().for_each(|missing| refused(4, &tree, insert(missing, own)));
                refused(4, &tree, set(31, own));
            }
            // in order, 7 comes, in a full tree too
            for low in [0, 1, MOST - high + 1] {
                refused(7, &tree, insert(NONE, bounds(low, MOST - high + 1)));
                refused(7, &tree, insert(7, bounds(low, MOST)));
                refused(7, &tree, set(7, bounds(low, MOST - high + 7 + 1)));
            }
            assert_eq!(tree.clone().play(set(7, bounds(0, MOST - high + 7))).0, 0);
        }
        assert_eq!(tree.clone().play(insert(7, bounds(0, MOST - high))).0, 0);
        refused(8, &full(&tree), insert(7, bounds(0, MOST - high)));
        refused(8, &full(&tree), insert(NONE, bounds(0, 0)));
    });
}

/// 10 before all else: the split's flag, the finger's flag, and a head of other than thirty-six words. The seats' words are of no account.
#[test]
fn a_bad_flag_or_head_is_10() {
    at_each_fan(|tree| {
        for flag in [2, 3, 256, MOST] {
            for (tree, id, own) in [(&tree, 7, bounds(1, 2)), (&tree.with(FAN, 3), MOST, bounds(MOST, 0))] {
                let mut after = tree.clone();
                assert_eq!((split(&mut after, id, own, flag), &after), ((10, [0; 2]), tree));
            }
            let flagged = Tree { homes: Area::new(&[]), ..tree.with(PRESENT, flag).with(FAN, 3) };
            every_call().into_iter().for_each(|call| refused(10, &flagged, call));
            assert_eq!(flagged.audit(), [10, 0]);
        }
        for words in [0, 1, 7, 8, 19, 35, 37, 72] {
            let head = tree.head.words().iter().copied().cycle().take(words).collect::<Vec<_>>();
            let bad = Tree { head: Area::new(&head), ..tree.clone() };
            every_call().into_iter().for_each(|call| refused(10, &bad, call));
            assert_eq!(bad.audit(), [10, 0]);
        }
        let seated = (SEATED..36).fold(tree.clone(), |tree, word| tree.with(word, 7));
        for call in every_call() {
            let [mut plain, mut other] = [tree.clone(), seated.clone()];
            assert_eq!(plain.play(call), other.play(call));
            let seats = &other.head.words()[SEATED..];
            assert!(seats == [7; 17] && other.head.words()[..SEATED] == plain.head.words()[..SEATED], "{call:?}");
            assert_eq!((other.leaves, other.inners, other.homes), (plain.leaves, plain.inners, plain.homes));
        }
        assert_eq!(seated.audit(), [0, 1]);
        let mut made = seated.clone();
        assert_eq!((make_in(&mut made, tree.word(FAN), 31, bounds(1, 1)), made.word(SHARES)), (0, 0));
    });
}

/// A root that leads outside is 9 to every call but reset, which reads no link, and count, which reads the head alone.
#[test]
fn a_root_that_leads_outside_is_9() {
    at_each_fan(|tree| {
        for call in every_call() {
            let mut astray = tree.with(ROOT, MOST);
            let number = astray.play(call).0;
            let wanted = if matches!(call, Call::Reset { .. } | Call::Count) { 0 } else { 9 };
            assert_eq!(number, wanted, "{call:?}");
        }
        assert_eq!(tree.with(ROOT, MOST).audit(), [0, 0]);
    });
}
