//! Each cause of a refusal on the reading copy's exports: its number, zeros for values, head and areas as they were, with guards around
//! them. The numbers wanted are document 01's and document 02's 17, written down here.

use beside::exports::{Area, Tree};
use beside::reading::{is_sound, make, make_in, split, Copies};
use oracle::fans::FANS;
use oracle::record::Call;
use oracle::state::{EFFECT, NONE};
use smelvock::raw::word::{FAN, LIMIT, PRESENT, ROOT, SEATED, SHARES};
use smelvock::{ReadingCopy, Refusal};
use std::sync::atomic::{AtomicU64, Ordering};

/// Refusals played, over all tests of this file.
static PLAYED: AtomicU64 = AtomicU64::new(0);

const MOST: u32 = u32::MAX;

/// Only the effect length is looked at.
fn only(effect: u32) -> [u32; 3] {
    [7, effect, 9]
}

fn insert(before: u32, length: u32) -> Call {
    Call::Insert { before, lengths: only(length) }
}

fn set(id: u32, length: u32) -> Call {
    Call::Set { id, lengths: only(length) }
}

/// Thirty entries, id 7 of length 5, with room for one more and a finger.
fn whole(fan: u32) -> Tree {
    let (number, mut tree) = make(fan, 31, 3);
    assert_eq!(number, 0);
    for id in 1..30 {
        let before = if id % 3 == 0 { NONE } else { id * 7 % id };
        assert_eq!(tree.play(insert(before, if id == 7 { 5 } else { id % 4 })).0, 0);
    }
    assert_eq!(tree.play(Call::Lookup { view: EFFECT, index: 11 }).0, 0);
    assert!(is_sound(tree.words()) && tree.word(PRESENT) == 1);
    every_call().into_iter().for_each(|call| assert_eq!(tree.clone().play(call).0, 0, "fan {fan}, {call:?}"));
    tree
}

/// Each call, none of which [`whole`] refuses.
fn every_call() -> [Call; 8] {
    let id = 7;
    [
        Call::Reset { lengths: only(2) },
        insert(id, 2),
        Call::Split { id, lengths: only(2), before: true },
        set(id, 2),
        Call::Lookup { view: EFFECT, index: 12 },
        Call::Rank { view: EFFECT, id },
        Call::Next { id },
        Call::Compare { first: id, second: 8 },
    ]
}

fn at_each_fan(test: impl Fn(Tree)) {
    FANS.into_iter().for_each(|fan| test(whole(fan)));
    println!("{} refusals so far", PLAYED.load(Ordering::Relaxed));
}

fn refused(number: u32, tree: &Tree, call: Call) {
    let mut after = tree.clone();
    assert_eq!(after.play(call), (number, [0; 3]), "{call:?}");
    assert!(after == *tree, "{call:?} is refused by {number} and changes {tree:?} to {after:?}");
    PLAYED.fetch_add(1, Ordering::Relaxed);
}

/// Both flags.
fn refused_split(number: u32, tree: &Tree, id: u32, length: u32) {
    [false, true]
        .into_iter()
        .for_each(|before| refused(number, tree, Call::Split { id, lengths: only(length), before }));
}

/// The sum of all lengths, as an entry at the end is answered it.
fn total(tree: &Tree) -> u32 {
    tree.clone().play(insert(NONE, 0)).1[1]
}

/// The tree with an entry more, which holds its limit then.
fn full(tree: &Tree) -> Tree {
    let mut full = tree.clone();
    assert_eq!(full.play(insert(NONE, 0)), (0, [30, total(tree), 0]));
    full
}

/// Make on those areas: its number, and the head that it leaves. A refused one leaves the areas.
fn made(tree: &Tree, fan: u32, limit: u32) -> (u32, Area) {
    let mut after = tree.clone();
    let number = make_in(&mut after, fan, limit, 5);
    let head = after.head.clone();
    assert!(number == 0 || Tree { head: tree.head.clone(), ..after } == *tree, "fan {fan}, limit {limit}");
    PLAYED.fetch_add(1, Ordering::Relaxed);
    (number, head)
}

/// Each area a word shorter than the limit needs.
fn one_word_short(tree: &Tree) -> [Tree; 3] {
    let short = |area: &Area| Area::new(&area.words()[1..]);
    [
        Tree { leaves: short(&tree.leaves), ..tree.clone() },
        Tree { inners: short(&tree.inners), ..tree.clone() },
        Tree { homes: short(&tree.homes), ..tree.clone() },
    ]
}

/// 10, 1, 2, each with those after it; a head of thirty-six words is then zeros.
#[test]
fn make_is_refused_by_10_1_2() {
    let zeros = Area::new(&[0; 36]);
    at_each_fan(|tree| {
        let fan = tree.word(FAN);
        let bad = [(0, 31), (3, 31), (33, 31), (MOST, 31), (fan, 0), (fan, 65_537), (fan, MOST), (3, 0)];
        for (bad_fan, bad_limit) in bad {
            let short = Tree { homes: Area::new(&[]), ..tree.clone() };
            assert_eq!(made(&short, bad_fan, bad_limit), (1, zeros.clone()), "{bad_fan}, {bad_limit}");
        }
        one_word_short(&tree).iter().for_each(|short| assert_eq!(made(short, fan, 31), (2, zeros.clone())));
        for words in [0, 19, 35, 37] {
            let head = Area::new(&vec![1; words]);
            let tree = Tree { head: head.clone(), homes: Area::new(&[]), ..tree.clone() };
            assert_eq!(made(&tree, 3, 0), (10, head));
        }
        assert_eq!(made(&tree, fan, 31).0, 0);
    });
    assert_eq!(ReadingCopy::<3>::new(1), Err(Refusal::SIZE));
    assert_eq!(ReadingCopy::<8>::with_limit(0, 1), Err(Refusal::SIZE));
}

/// 1 and 2 of the other calls, before an id or a position is looked at.
#[test]
fn size_and_areas_are_1_and_2() {
    at_each_fan(|tree| {
        for (word, value) in [(FAN, 3), (FAN, 33), (LIMIT, 0), (LIMIT, 65_537)] {
            let bad = Tree { homes: Area::new(&[]), ..tree.with(word, value) };
            every_call().into_iter().for_each(|call| refused(1, &bad, call));
        }
        for short in one_word_short(&tree) {
            every_call().into_iter().for_each(|call| refused(2, &short, call));
            refused(2, &short, set(30, MOST));
            refused(2, &short, Call::Lookup { view: EFFECT, index: MOST });
        }
    });
}

/// 4 before all that an entry or a length gives; of two ids the first is tested first, and both are 4.
#[test]
fn an_unknown_id_is_4_and_a_position_past_the_end_5() {
    at_each_fan(|tree| {
        let end = total(&tree);
        for id in [30, 31, MOST - 1] {
            refused(4, &tree, insert(id, MOST));
            refused(4, &tree, set(id, MOST));
            refused_split(4, &tree, id, MOST);
            [Call::Rank { view: EFFECT, id }, Call::Next { id }].into_iter().for_each(|call| refused(4, &tree, call));
            for (first, second) in [(id, 7), (7, id), (id, id)] {
                refused(4, &tree, Call::Compare { first, second });
            }
        }
        refused(4, &tree, set(NONE, 1));
        refused_split(4, &tree, NONE, 1);
        [end, end + 1, MOST].into_iter().for_each(|index| refused(5, &tree, Call::Lookup { view: EFFECT, index }));
        assert_eq!(tree.clone().play(Call::Lookup { view: EFFECT, index: end - 1 }).0, 0);
    });
}

/// 6, 17, 8: more than the entry has, then a part that would be hollow, then want of space.
#[test]
fn splits_are_refused_by_6_17_8() {
    at_each_fan(|tree| {
        for tree in [tree.clone(), full(&tree)] {
            [6, 7, MOST].into_iter().for_each(|length| refused_split(6, &tree, 7, length));
            [0, 5].into_iter().for_each(|length| refused_split(17, &tree, 7, length));
            // entry 8 has no length at all
            refused_split(6, &tree, 8, 1);
            refused_split(17, &tree, 8, 0);
        }
        for (length, before) in [1, 2, 4].into_iter().flat_map(|length| [(length, false), (length, true)]) {
            refused_split(8, &full(&tree), 7, length);
            let mut parted = tree.clone();
            let at = tree.clone().play(Call::Rank { view: EFFECT, id: 7 }).1[0];
            assert_eq!(parted.play(Call::Split { id: 7, lengths: only(length), before }), (0, [30, 0, 0]));
            let (first, second) = if before { (30, 7) } else { (7, 30) };
            let between = if before { length } else { 5 - length };
            assert_eq!(parted.play(Call::Next { id: first }).1[0], second);
            assert_eq!(parted.play(Call::Rank { view: EFFECT, id: second }).1[0], at + between);
            assert!(is_sound(parted.words()));
        }
    });
}

/// 7 before 8, exactly where the total would pass u32.
#[test]
fn a_total_past_u32_is_7_before_8() {
    at_each_fan(|tree| {
        let left = MOST - total(&tree);
        for tree in [tree.clone(), full(&tree)] {
            [7, NONE].into_iter().for_each(|before| refused(7, &tree, insert(before, left + 1)));
            refused(7, &tree, insert(7, MOST));
            refused(7, &tree, set(7, left + 5 + 1));
            assert_eq!(tree.clone().play(set(7, left + 5)).0, 0);
        }
        assert_eq!(tree.clone().play(insert(7, left)).0, 0);
        [0, 1, left].into_iter().for_each(|length| refused(8, &full(&tree), insert(NONE, length)));
    });
}

/// 10 before all else: the split's flag, the finger's flag, and a head of other than thirty-six words. The seats' words are of no account.
#[test]
fn a_bad_flag_or_head_is_10() {
    at_each_fan(|tree| {
        for flag in [2, 3, 256, MOST] {
            for (tree, id, length) in [(&tree, 7, 2), (&tree.with(FAN, 3), MOST, MOST)] {
                let mut after = tree.clone();
                assert_eq!((split(&mut after, id, length, flag), &after), ((10, [0; 3]), tree));
            }
            let flagged = Tree { homes: Area::new(&[]), ..tree.with(PRESENT, flag).with(FAN, 3) };
            every_call().into_iter().for_each(|call| refused(10, &flagged, call));
        }
        for words in [0, 1, 7, 8, 19, 35, 37, 72] {
            let head = tree.head.words().iter().copied().cycle().take(words).collect::<Vec<_>>();
            let bad = Tree { head: Area::new(&head), ..tree.clone() };
            every_call().into_iter().for_each(|call| refused(10, &bad, call));
        }
        let seated = (SEATED..36).fold(tree.clone(), |tree, word| tree.with(word, 7));
        for call in every_call() {
            let [mut plain, mut other] = [tree.clone(), seated.clone()];
            assert_eq!(plain.play(call), other.play(call));
            let seats = &other.head.words()[SEATED..];
            assert!(seats == [7; 17] && other.head.words()[..SEATED] == plain.head.words()[..SEATED], "{call:?}");
            assert_eq!((other.leaves, other.inners, other.homes), (plain.leaves, plain.inners, plain.homes));
        }
        let mut made = seated.clone();
        assert_eq!((make_in(&mut made, tree.word(FAN), 31, 1), made.word(SHARES)), (0, 0));
    });
}

/// A root that leads outside is 9 to every call but reset, which reads no link.
#[test]
fn a_root_that_leads_outside_is_9() {
    at_each_fan(|tree| {
        for call in every_call() {
            let mut astray = tree.with(ROOT, MOST);
            let wanted = if matches!(call, Call::Reset { .. }) { 0 } else { 9 };
            assert_eq!(astray.play(call).0, wanted, "{call:?}");
        }
    });
}
