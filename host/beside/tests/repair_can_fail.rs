//! The runs of repair find out a repair that does otherwise: each stand-in is oracle's, gone wrong in one thing.

use beside::damage::word;
use beside::exports::{Answer, Area, Tree};
use beside::repair::runs::{every_flip, every_kind};
use beside::repair::sites::{Site, Sites, HOME, INNER, LEAF};
use beside::repair::trees::{tree, trusted_alone};
use beside::repair::{compare, flagged, state_of, wanted, Met, Repairs, FINGER};
use oracle::audit::{audit, refusal, Verdict};
use oracle::driver::Parted;
use oracle::repair::{differing, only_tree};
use oracle::state::{node_words, State};
use smelvock::raw::word::{ENTRIES, FAN, LEVELS, ROOT, SHARES};

fn right(tree: &mut Tree) -> Answer {
    let (answer, after) = wanted(tree);
    *tree = after;
    answer
}

fn put_right(words: u32) -> Answer {
    Answer { number: 0, values: vec![words] }
}

fn refused(number: u32) -> Answer {
    Answer { number, values: vec![0] }
}

/// The tree is put right, and then something else is done to it. The count is that of the words left.
fn then(tree: &mut Tree, done: fn(&Tree, &mut Tree)) -> Answer {
    let before = tree.clone();
    match right(tree) {
        Answer { number: 0, .. } => {
            done(&before, tree);
            put_right(differing(&state_of(&before), &state_of(tree)))
        }
        answer => answer,
    }
}

/// The tree is put right; the answer has another count.
fn counted(tree: &mut Tree, count: fn(&Tree, &Tree) -> u32) -> Answer {
    let before = tree.clone();
    match right(tree) {
        Answer { number: 0, .. } => put_right(count(&before, tree)),
        answer => answer,
    }
}

/// Refused by 21, with something done all the same.
fn at_21(tree: &mut Tree, done: fn(&mut Tree)) -> Answer {
    let answer = right(tree);
    if answer.number == 21 {
        done(tree);
    }
    answer
}

/// Refused by 21 also where that holds of a tree that could be put right.
fn or_21(tree: &mut Tree, also: fn(&Tree) -> bool) -> Answer {
    let before = tree.clone();
    let answer = right(tree);
    if answer.number != 0 || !also(&before) {
        return answer;
    }
    *tree = before;
    refused(21)
}

/// Another number in that one's place.
fn renumbered(tree: &mut Tree, number: u32, other: u32) -> Answer {
    let answer = right(tree);
    Answer { number: if answer.number == number { other } else { answer.number }, ..answer }
}

/// A test of audit's left out: the tree is taken although that phrase doesn't hold of what comes out.
fn untested(tree: &mut Tree, phrase: &'static str) -> Answer {
    let before = state_of(tree);
    if flagged(tree) || refusal(&before) != 0 {
        return right(tree);
    }
    let Some(only) = only_tree(&before).filter(|only| audit(only) == Verdict::No(phrase)) else { return right(tree) };
    let words = differing(&before, &only);
    let State { leaves, inners, homes, .. } = only;
    [tree.leaves, tree.inners, tree.homes] = [leaves, inners, homes].map(|words| Area::new(&words));
    tree.head.words_mut()[FINGER].fill(0);
    put_right(words)
}

fn words(tree: &Tree, area: usize) -> &[u32] {
    [&tree.leaves, &tree.inners, &tree.homes, &tree.head][area].words()
}

/// Those words are left as they were.
fn left(before: &Tree, after: &mut Tree, which: fn(&Sites) -> Vec<Site>) {
    for (area, at) in which(&Sites::of(after)) {
        *word(after, area, at) = words(before, area)[at];
    }
}

/// Those words get another value.
fn set(after: &mut Tree, which: fn(&Sites) -> Vec<Site>, value: fn(u32) -> u32) {
    for (area, at) in which(&Sites::of(after)) {
        let word = word(after, area, at);
        *word = value(*word);
    }
}

fn of_area(sites: &[Site], area: usize) -> Vec<Site> {
    sites.iter().copied().filter(|site| site.0 == area).collect()
}

/// Every third of the sums: the line ends'.
fn line_sums(sites: &Sites) -> Vec<Site> {
    sites.sums.iter().copied().skip(2).step_by(3).collect()
}

fn root_word(tree: &Tree, at: usize) -> usize {
    tree.word(ROOT) as usize * node_words(tree.word(FAN)) + at
}

const WRONG: [(&str, Repairs); 43] = [
    ("sums left", |tree| then(tree, |before, after| left(before, after, |sites| sites.sums.clone()))),
    ("sums of line ends left", |tree| then(tree, |before, after| left(before, after, line_sums))),
    ("the root's sums left", |tree| {
        then(tree, |before, after| {
            let at = root_word(after, 4);
            after.inners.words_mut()[at] = before.inners.words()[at];
        })
    }),
    ("parents of leaves left", |tree| {
        then(tree, |before, after| left(before, after, |sites| of_area(&sites.parents, LEAF)))
    }),
    ("parents of inner nodes left", |tree| {
        then(tree, |before, after| left(before, after, |sites| of_area(&sites.parents, INNER)))
    }),
    ("a parent for the root", |tree| {
        then(tree, |_, after| {
            let at = root_word(after, 1);
            after.inners.words_mut()[at] = 0;
        })
    }),
    ("places of leaves left", |tree| {
        then(tree, |before, after| left(before, after, |sites| of_area(&sites.places, LEAF)))
    }),
    ("places of inner nodes left", |tree| {
        then(tree, |before, after| left(before, after, |sites| of_area(&sites.places, INNER)))
    }),
    ("places from 1", |tree| then(tree, |_, after| set(after, |sites| of_area(&sites.places, LEAF), |at| at + 1))),
    ("homes left", |tree| then(tree, |before, after| left(before, after, |sites| sites.homes.clone()))),
    ("the last home left", |tree| {
        then(tree, |before, after| left(before, after, |sites| sites.homes.last().copied().into_iter().collect()))
    }),
    ("unused slots of leaves left", |tree| {
        then(tree, |before, after| left(before, after, |sites| of_area(&sites.unused, LEAF)))
    }),
    ("unused slots of inner nodes left", |tree| {
        then(tree, |before, after| left(before, after, |sites| of_area(&sites.unused, INNER)))
    }),
    ("unused slots of zeros", |tree| then(tree, |_, after| set(after, |sites| sites.unused.clone(), |_| 0))),
    ("the finger kept", |tree| {
        then(tree, |before, after| {
            after.head.words_mut()[FINGER].copy_from_slice(&before.head.words()[FINGER]);
        })
    }),
    ("homes out of use cleared", |tree| then(tree, |_, after| set(after, |sites| of_area(&sites.idle, HOME), |_| 0))),
    ("leaves out of use cleared", |tree| then(tree, |_, after| set(after, |sites| of_area(&sites.idle, LEAF), |_| 0))),
    ("inner nodes out of use cleared", |tree| {
        then(tree, |_, after| set(after, |sites| of_area(&sites.idle, INNER), |_| 0))
    }),
    ("a new stamp", |tree| then(tree, |_, after| *after = after.stamped(after.word(ENTRIES) as u64))),
    ("shares cleared", |tree| then(tree, |_, after| after.head.words_mut()[SHARES..].fill(0))),
    ("no word counted", |tree| counted(tree, |_, _| 0)),
    ("words written counted", |tree| counted(tree, |_, after| Sites::of(after).rewritten().count() as u32)),
    ("1 for however many words", |tree| counted(tree, |before, after| (before.areas() != after.areas()) as u32)),
    ("words of the inner area counted", |tree| {
        counted(tree, |before, after| {
            let both = before.inners.words().iter().zip(after.inners.words());
            both.filter(|(before, after)| before != after).count() as u32
        })
    }),
    ("the finger's words counted", |tree| {
        counted(tree, |before, after| {
            let finger = before.head.words().iter().zip(after.head.words()).filter(|(before, after)| before != after);
            differing(&state_of(before), &state_of(after)) + finger.count() as u32
        })
    }),
    ("21 for every unsound tree", |tree| or_21(tree, |before| audit(&state_of(before)) != Verdict::Yes)),
    ("21 for a wrong finger", |tree| or_21(tree, |before| audit(&state_of(before)) == Verdict::No("finger"))),
    ("21 for a wrong home", |tree| or_21(tree, |before| audit(&state_of(before)) == Verdict::No("homes"))),
    ("21 for a wrong parent", |tree| or_21(tree, |before| audit(&state_of(before)) == Verdict::No("parent, at"))),
    ("21 for fifteen levels", |tree| or_21(tree, |before| before.word(LEVELS) == 15)),
    ("9 for 21", |tree| renumbered(tree, 21, 9)),
    ("21 for 2", |tree| renumbered(tree, 2, 21)),
    ("the finger dropped at 21", |tree| at_21(tree, |tree| tree.head.words_mut()[FINGER].fill(0))),
    ("homes cleared at 21", |tree| at_21(tree, |tree| tree.homes.words_mut().fill(0))),
    ("counts untested", |tree| untested(tree, "counts within limit")),
    ("lens untested", |tree| untested(tree, "len from half to fan")),
    ("nodes met twice or never", |tree| untested(tree, "every node in use reached once, leaves equally deep")),
    ("ids untested", |tree| untested(tree, "ids 0 to count - 1 once each")),
    ("line ends untested", |tree| untested(tree, "at most 65,535 line ends")),
    ("totals untested", |tree| untested(tree, "totals within u32")),
    ("shares untested", |tree| untested(tree, "shares sum to at most limit - 1")),
    ("charges untested", |tree| untested(tree, "charges sum to the entries less one")),
    ("unused shares untested", |tree| untested(tree, "free entries cover all unused shares")),
];

/// Every kind of damage to some trees, every flip of a word in one, and one of fifteen levels.
fn runs(repairs: Repairs) -> Result<(), Parted> {
    let mut met = Met::default();
    let trees = [
        tree::<4>(9, false, true),
        tree::<4>(40, true, false),
        tree::<5>(17, false, false),
        tree::<8>(60, false, true),
    ];
    for tree in &trees {
        every_kind(repairs, tree, 8, 3, &mut met)?;
    }
    every_flip(repairs, tree::<4>(9, false, false), &mut met)?;
    compare(repairs, &trusted_alone(4, 15).expect("65,536 entries"), &mut met).map(|_| ())
}

#[test]
fn every_stand_in_is_found_out() {
    for (name, wrong) in WRONG {
        let parted = runs(wrong).expect_err(name);
        println!("{name}: {}", &parted[..parted.len().min(100)]);
    }
    assert_eq!(runs(right), Ok(()));
    println!("{} stand-ins, each found out", WRONG.len());
}
