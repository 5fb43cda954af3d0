//! Old cursors and mangled ones in every call, beside lib.rs: the number of each call is the one that lib.rs's own state wants, 3, 13
//! or 14 for a cursor that fails. Where it is 0, lib.rs is called too, and answers, cursors and words are compared; where it isn't,
//! the port's values are zeros and its words stay.

use beside::any_cursor::{Beside, Drawn, List, Style};
use beside::cursors::TAKING;
use beside::exports::{Export, Given, Tree, EXPORTS};
use beside::met::{across_resets, Met, Thing, FAULTS};
use beside::plays::Plays;
use beside::port::three;
use beside::words::{on_zeros, parted};
use oracle::at_fan;
use oracle::fans::FANS;
use smelvock::raw::{word, Areas};
use smelvock::{raw, Cursor, PrepareEffectTree, Refusal};

/// Lists of each style at each fan, on the exports and again on `host/smelvock`.
const LISTS: u64 = if cfg!(debug_assertions) { 3 } else { 6 };
const CALLS: u64 = 5_000;

/// A tree that fills up and begins anew now and then; one so small that it often has as many entries as before a reset; one that
/// grows deep at the small fans. Each with the levels that it gets to.
const STYLES: [(Style, u32); 3] = [
    (Style { name: "to the limit", limit: 120, reset_every: 1_000 }, 4),
    (Style { name: "small sheets", limit: 14, reset_every: 40 }, 2),
    (Style { name: "several levels", limit: 500, reset_every: 2_000 }, 5),
];

fn made<const N: usize>(limit: u32) -> PrepareEffectTree<N> {
    on_zeros(limit, [2, 1, 1])
}

/// The tree with another stamp in its head.
fn stamped<const N: usize>(tree: &PrepareEffectTree<N>, stamp: u64) -> PrepareEffectTree<N> {
    let mut head = tree.head();
    head[word::STAMP..word::SEATED].copy_from_slice(&parted(stamp));
    let Areas { leaves, inners, homes } = tree.areas();
    PrepareEffectTree::from_words(head, leaves.to_vec(), inners.to_vec(), homes.to_vec())
}

/// Where the stamps of the lists begin: with make, and a little below the ends of the low word and of both, which each list passes.
const STAMPS: [u64; 3] = [1, (1 << 32) - 30, u64::MAX - 30];

fn played<const N: usize, P: Plays>(style: Style, make: fn(&PrepareEffectTree<N>) -> P) -> Met {
    let mut met = Met::default();
    for seed in 0..LISTS {
        let stamp = STAMPS[seed as usize % 3];
        let port = make(&stamped(&made(style.limit), stamp));
        let beside = Beside::<N, P>::stamped(port, style.limit, [2, 1, 1], stamp);
        let mut list = List::new(beside, style, seed * 64 + N as u64, stamp);
        list.play(CALLS).unwrap();
        assert!((60..CALLS).contains(&list.made().wrapping_sub(stamp)), "{}, {}", style.name, list.made());
        assert!(list.met.before_reset > 0, "{}", style.name);
        met += &list.met;
    }
    met
}

/// Every style meets at every fan all that `met::needed` names, on the exports and on `host/smelvock`.
#[test]
fn random_lists() {
    let mut calls = 0;
    for (style, levels) in STYLES {
        let mut met = Met::default();
        for fan in FANS {
            let both = at_fan!(fan, N => [played::<N, _>(style, Tree::of), played::<N, _>(style, Clone::clone)]);
            for of_one in both {
                assert!(of_one.whole(), "{}, fan {fan}: {of_one}", style.name);
                let across = across_resets().into_iter().all(|thing| of_one.of(thing) > 0);
                assert!(across || style.name != "small sheets", "fan {fan}: {of_one}");
                met += &of_one;
            }
        }
        println!("{}, all fans: {met}", style.name);
        assert!(met.most_levels >= levels, "{}", style.name);
        calls += met.calls;
    }
    assert_eq!(calls, (STYLES.len() * FANS.len()) as u64 * 2 * LISTS * CALLS);
}

/// A tree of that limit, with so many entries inserted at the end.
fn extended<const N: usize>(limit: u32, inserts: usize) -> Beside<N, Tree> {
    let mut beside = Beside::new(Tree::of(&made::<N>(limit)), limit, [2, 1, 1]);
    let given = Given { end: 1, lengths: three([1, 2, 3]).into(), ..Given::default() };
    for _ in 0..inserts {
        beside.play(Export::Insert, &given).unwrap();
    }
    beside
}

/// Twice the fan and one entry more, in four leaves, with room for four.
fn four_leaves<const N: usize>() -> Beside<N, Tree> {
    let beside = extended(2 * N as u32 + 5, 2 * N);
    assert_eq!(beside.state().head.leaf_count, 4);
    beside
}

/// Every call on that cursor; comparisons with each of the others, in either place.
fn every_call<const N: usize>(beside: &Beside<N, Tree>, at: raw::Cursor, others: &[raw::Cursor], met: &mut Met) {
    let state = beside.state();
    let mut play = |export, given: Given| {
        let number = beside.clone().play(export, &given).unwrap().number;
        met.note(&state, export, &given, [given.at, given.other].map(|at| Drawn { at, issued: None }), 0, number);
    };
    let lengths = three([0, 0, 1]).into();
    for export in TAKING.into_iter().filter(|&export| export != Export::Cmp) {
        play(export, Given { at, lengths, ..Given::default() });
    }
    for &other in others {
        play(Export::Cmp, Given { at, other, ..Given::default() });
        play(Export::Cmp, Given { at: other, other: at, ..Given::default() });
    }
}

fn around<const N: usize>() -> Met {
    let beside = four_leaves::<N>();
    let made = 2 * N as u64 + 1;
    let stamps = [0, made - 1, made, made + 1, u32::MAX as u64, made + (1 << 32), made << 32, u64::MAX];
    let of_each_number = [(0, 1, made), (0, 0, made - 1), (4, 0, made), (0, N as u32, made)]
        .map(|(leaf, slot, stamp)| raw::Cursor { leaf, slot, stamp });
    let mut met = Met::default();
    for leaf in (0..=6).chain([u32::MAX]) {
        for slot in (0..=N as u32 + 1).chain([u32::MAX]) {
            for stamp in stamps {
                every_call(&beside, raw::Cursor { leaf, slot, stamp }, &of_each_number, &mut met);
            }
        }
    }
    met
}

/// Every leaf and slot of a small tree and those beyond, with the present stamp and with others.
#[test]
fn every_cursor_around_a_small_tree() {
    for fan in FANS {
        let met = at_fan!(fan, N => around::<N>());
        println!("fan {fan}: {met}");
        assert_eq!(met.calls, 8 * (fan as u64 + 3) * 8 * (8 + 8));
        for (number, export) in FAULTS.into_iter().flat_map(|number| TAKING.map(|export| (number, export))) {
            assert!(met.of(Thing::Taking(export, number)) > 0, "fan {fan}, {export:?}, {number}");
        }
        for (first, second) in FAULTS.into_iter().flat_map(|first| FAULTS.map(|second| (first, second))) {
            assert!(met.of(Thing::Pair(first, second)) > 0, "fan {fan}, {first}, {second}");
        }
    }
}

/// In a tree that holds its limit a cursor that fails is told before 8 and before 17, and a hollow split before 8.
#[test]
fn a_full_tree_tells_the_cursor_first() {
    let mut beside = extended::<4>(5, 4);
    for (leaf, slot, stamp, number) in [(0, 0, 4, 3), (2, 0, 5, 13), (0, 2, 5, 14), (0, 0, 5, 8)] {
        let at = raw::Cursor { leaf, slot, stamp };
        let mut play = |export, lengths| {
            let given = Given { at, lengths: three(lengths).into(), ..Given::default() };
            beside.play(export, &given).unwrap().number
        };
        for lengths in [[0, 0, 1], [0; 3], [2, 1, 1]] {
            assert_eq!(play(Export::Insert, lengths), number);
        }
        assert_eq!(play(Export::SplitEntry, [0, 0, 1]), number);
        let hollow = if number == 8 { 17 } else { number };
        assert_eq!([[0; 3], [2, 1, 1]].map(|lengths| play(Export::SplitEntry, lengths)), [hollow; 2]);
    }
}

/// The number of a call on that cursor, for both cursors of a comparison. A refused call answers zeros and leaves every word.
fn number<const N: usize>(tree: &PrepareEffectTree<N>, export: Export, at: Cursor) -> u32 {
    let mut after = Tree::of(tree);
    let given = Given { at: at.into(), other: at.into(), lengths: three([0, 0, 1]).into(), ..Given::default() };
    let answer = after.play(export, &given);
    if answer.number != 0 {
        assert!(answer.values.iter().all(|&value| value == 0) && after == Tree::of(tree), "{export:?}");
    }
    answer.number
}

/// The stamp in the tree's head.
fn stamp_of<const N: usize>(tree: &PrepareEffectTree<N>) -> u64 {
    Tree::of(tree).stamp()
}

/// The cursor is refused by 3 in all nine calls. With the present stamp in its place it stands for that entry or fails by that number.
fn fails<const N: usize>(tree: &PrepareEffectTree<N>, old: Cursor, restamped: Result<u32, Refusal>) {
    let present = Cursor::from(raw::Cursor { stamp: stamp_of(tree), ..old.into() });
    assert_eq!((tree.id(old), tree.id(present)), (Err(Refusal::STAMP), restamped));
    for export in TAKING {
        assert_eq!(number(tree, export, old), 3, "{export:?}");
        assert_eq!(number(tree, export, present), restamped.map_or_else(|refusal| refusal.number, |_| 0), "{export:?}");
    }
}

/// A tree with those entries, each inserted at the end.
fn grown<const N: usize>(entries: &[[u32; 3]]) -> PrepareEffectTree<N> {
    let mut tree = on_zeros(40, entries[0]);
    entries[1..].iter().for_each(|&lengths| assert!(tree.insert(None, three(lengths)).is_ok()));
    tree
}

const FIVE: [[u32; 3]; 5] = [[1; 3], [2; 3], [3; 3], [4; 3], [5; 3]];

/// Cases A (two trees), B (two trees), C and D of docs/DIFFERENCES.md.
#[test]
fn the_cases_of_differences() {
    let mut tree = grown::<4>(&[[3, 3, 1], [2, 0, 0]]);
    let old = tree.cursor(1).unwrap();
    tree.insert(Some(tree.cursor(0).unwrap()), three([0, 5, 2])).unwrap();
    fails(&tree, old, Ok(0));
    let mut tree = grown::<4>(&[[3; 3]]);
    let old = tree.cursor(0).unwrap();
    tree.split_entry(old, three([1; 3]), true).unwrap();
    fails(&tree, old, Ok(1));

    let mut tree = grown::<4>(&FIVE[..4]);
    let old = tree.cursor(3).unwrap();
    tree.insert(None, three([5; 3])).unwrap();
    fails(&tree, old, Err(Refusal::SLOT));
    let mut tree = grown::<32>(&[[1; 3]; 32]);
    let old = tree.cursor(31).unwrap();
    tree.insert(None, three([1; 3])).unwrap();
    fails(&tree, old, Err(Refusal::SLOT));

    let mut tree = grown::<4>(&FIVE);
    let old = tree.cursor(4).unwrap();
    tree.reset(three([1; 3])).unwrap();
    fails(&tree, old, Err(Refusal::LEAF));

    let mut tree = grown::<4>(&FIVE);
    let old = tree.cursor(1).unwrap();
    tree.insert(None, three([6; 3])).unwrap();
    fails(&tree, old, Ok(1));
}

/// A cursor from before a reset is 3 in every call, however many entries the tree has now: as many as then, so that its leaf and slot
/// are in use again, fewer or more. With the present stamp in its place it would stand for whatever is there.
#[test]
fn a_cursor_from_before_a_reset() {
    let mut tree = grown::<4>(&[[1; 3]; 7]);
    let cursors = [0, 1, 2, 3, 4, 5, 6].map(|id| tree.cursor(id).unwrap());
    assert!(cursors.iter().all(|&at| raw::Cursor::from(at).stamp == 7));
    tree.reset(three([1; 3])).unwrap();
    (1..5).for_each(|id| assert_eq!(tree.insert(None, three([1; 3])), Ok((id, id))));
    for _ in 0..2 {
        tree.insert(Some(tree.cursor(0).unwrap()), three([1; 3])).unwrap();
    }
    assert_eq!((tree.len(), stamp_of(&tree)), (Ok(7), 14));
    let gone = Err(Refusal::LEAF);
    for (at, restamped) in cursors.into_iter().zip([Ok(5), Ok(6), Ok(2), Ok(3), gone, gone, gone]) {
        fails(&tree, at, restamped);
    }
    let last_of_four = tree.cursor(1).unwrap();
    tree.reset(three([1; 3])).unwrap();
    (1..7).for_each(|id| assert_eq!(tree.insert(None, three([1; 3])), Ok((id, id))));
    fails(&tree, last_of_four, Err(Refusal::SLOT));
}

/// Sheets of n entries, one after the other, in one tree: no cursor of an earlier sheet passes in a later one, at any time of it. The
/// stamps are counted here.
fn sheet_after_sheet<const N: usize>() {
    let mut tree = made::<N>(40);
    let (mut made, mut old) = (1u64, Vec::new());
    for n in [1, 2, 5, 5, 17, 40, 40] {
        for entries in 1..=n {
            old.iter()
                .for_each(|&at| assert_eq!(tree.id(at), Err(Refusal::STAMP), "N {N}, {at:?}, {made} entries made"));
            let now = (0..entries).map(|id| tree.cursor(id).unwrap()).collect::<Vec<_>>();
            assert!(now.iter().all(|&at| raw::Cursor::from(at).stamp == made && tree.id(at).is_ok()));
            old.extend(now);
            if entries < n {
                tree.insert(None, three([1; 3])).unwrap();
                made += 1;
            }
        }
        tree.reset(three([1; 3])).unwrap();
        made += 1;
    }
    assert_eq!(stamp_of(&tree), made);
}

#[test]
fn sheets_of_one_tree() {
    FANS.into_iter().for_each(|fan| at_fan!(fan, N => sheet_after_sheet::<N>()));
}

/// What makes an entry, in a tree of two.
const MAKES: [Export; 3] = [Export::Reset, Export::Insert, Export::SplitEntry];

/// Heads whose stamp is the last one, or the last but one, of the low word and of both: the cursor issued then is current, and 3 after
/// one more entry; the two words are those of the next stamp. A refused call and those that make no entry leave them.
#[test]
fn the_stamp_goes_round() {
    let ends = [
        (u64::MAX - 1, [u32::MAX, u32::MAX]),
        (u64::MAX, [0, 0]),
        (u32::MAX as u64, [0, 1]),
        (u32::MAX as u64 - 1, [u32::MAX, 0]),
    ];
    for (stamp, next) in ends {
        let tree = stamped(&grown::<4>(&FIVE[..2]), stamp);
        let words = |tree: &Tree| [word::STAMP, word::STAMP + 1].map(|at| tree.word(at));
        let at = tree.cursor(1).unwrap();
        assert_eq!((raw::Cursor::from(at).stamp, tree.id(at), tree.audit()), (stamp, Ok(1), Ok(true)));
        let given = Given {
            at: at.into(),
            other: at.into(),
            lengths: three([1; 3]).into(),
            fan: 4,
            limit: 40,
            ..Given::default()
        };
        for export in EXPORTS {
            let mut after = Tree::of(&tree);
            assert_eq!(export.play(&mut after, &given).number, 0, "{export:?}");
            let wanted = match export {
                Export::New => [1, 0],
                _ if MAKES.contains(&export) => next,
                _ => parted(stamp),
            };
            assert_eq!(words(&after), wanted, "{export:?} after {stamp}");
            if wanted == next {
                TAKING
                    .iter()
                    .for_each(|export| assert_eq!(export.play(&mut after.clone(), &given).number, 3, "{export:?}"));
                let now = Export::Cursor.play(&mut after.clone(), &Given { id: 0, ..given }).values;
                assert_eq!(now[2..], next);
            }
            let overlong = Given { lengths: raw::Lengths { lines: 65_536, ..given.lengths }, ..given };
            let mut after = Tree::of(&tree);
            if MAKES.contains(&export) {
                assert_eq!(
                    (export.play(&mut after, &overlong).number, words(&after)),
                    (10, parted(stamp)),
                    "{export:?}"
                );
            }
        }
    }
}

/// Any two words are a stamp: audit doesn't read them, and the cursors bear them.
#[test]
fn any_stamp_is_sound() {
    let tree = Tree::of(&grown::<4>(&FIVE));
    for stamp in [0, 1, 4, 6, 1 << 31, 1 << 32, 5 << 32, 1 << 63, u64::MAX] {
        let tree = tree.stamped(stamp);
        let given = Given { id: 3, ..Given::default() };
        assert_eq!(Export::Audit.play(&mut tree.clone(), &given).values, [1]);
        let [low, high] = parted(stamp);
        assert_eq!(Export::Cursor.play(&mut tree.clone(), &given).values, [1, 1, low, high]);
    }
}
