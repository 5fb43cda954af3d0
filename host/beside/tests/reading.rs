//! The reading copy beside the full tree: every list of its calls is played on both, each call of the full tree as `cursor(id)` and the
//! call there, and on a row of each. The copy's answers are its row's, its words lib.rs's with the effect lengths alone, and wherever the
//! proviso of document 02's CR 12 holds the answers are the full tree's. A call of which it doesn't hold is tried on both and left out of
//! the list; each refusal that the proviso leaves out is met.

use beside::lists::runs;
use beside::reading::{make, on_full, Alone, Came, Copies, Pair};
use oracle::at_fan;
use oracle::fans::FANS;
use oracle::lists::Lister;
use oracle::record::Call;
use oracle::runs::Run;
use oracle::state::{EFFECT, MOST_LINES, NONE};
use smelvock::raw::word::LEVELS;
use smelvock::{Lengths, PrepareEffectTree, ReadingCopy};
use std::collections::BTreeMap;

/// A debug build plays fewer.
const LISTS: u64 = if cfg!(debug_assertions) { 1 } else { 8 };

/// How often both answered a number, how often a call was left out by the numbers there and here, and the most levels of a copy.
#[derive(Default, Debug)]
struct Met {
    same: BTreeMap<u32, u64>,
    left_out: BTreeMap<(u32, u32), u64>,
    most_levels: u32,
}

fn list<const N: usize, P: Copies>(copy: P, run: &Run, seed: u64, met: &mut Met) {
    let mut lister = Lister::new(seed, run.style);
    let mut pair = Pair::<N, P>::new(copy, run.limit, run.first);
    for drawn in 0..run.calls {
        let Some(call) = lister.draw(&pair.row).call().and_then(beside::reading::there) else { continue };
        // no record has too many line ends, and few move too much in another length alone
        let call = match call {
            Call::Split { id, lengths: [_, effect, lines], before } if drawn % 20 == 0 => {
                Call::Split { id, lengths: [u32::MAX, effect, lines], before }
            }
            call if call.lengths().is_some() && drawn % 100 == 99 => call.with_lines(MOST_LINES + 1),
            call => call,
        };
        match pair.play(call, drawn % 40 == 0).unwrap_or_else(|parted| panic!("call {drawn} of seed {seed}: {parted}"))
        {
            Came::Same(number) => *met.same.entry(number).or_default() += 1,
            Came::LeftOut(there, here) => *met.left_out.entry((there, here)).or_default() += 1,
        }
    }
    met.most_levels = met.most_levels.max(pair.copy.copy.words()[0][LEVELS]);
}

/// On guarded words of the exports, and on `host/smelvock`'s own type.
fn on_both<const N: usize>(run: &Run, seed: u64, met: &mut Met) {
    let (number, tree) = make(N as u32, run.limit, run.first[EFFECT]);
    assert_eq!(number, 0);
    list::<N, _>(tree, run, seed, met);
    let copy = ReadingCopy::<N>::with_limit(run.limit, run.first[EFFECT]).expect("a good make");
    list::<N, _>(copy, run, seed + 1, met);
}

#[test]
fn every_list_on_both_trees() {
    let mut met = Met::default();
    for (run, of) in runs(LISTS).iter().zip(0..) {
        for (fan, again) in FANS.into_iter().flat_map(|fan| (0..run.lists).map(move |again| (fan, again))) {
            at_fan!(fan, N => on_both::<N>(run, (of * 100 + again) * 640 + fan as u64 * 10, &mut met));
        }
    }
    println!("{} calls on both: {met:?}", met.same.values().sum::<u64>());
    assert!([0, 4, 5, 6, 7, 8].iter().all(|number| met.same.get(number).is_some_and(|&count| count > 20)), "{met:?}");
    // done here; and refused here, done there or not
    let wanted = [(6, 0), (7, 0), (10, 0), (0, 17), (17, 17)];
    assert!(wanted.iter().all(|numbers| met.left_out.get(numbers).is_some_and(|&count| count > 20)), "{met:?}");
    // the only numbers that both may give are 17, and on account of another length the copy gives another
    assert!(met.left_out.keys().all(|&(there, here)| there != here || here == 17), "{met:?}");
    assert!(met.most_levels >= 5, "{met:?}");
}

/// The refusals that the proviso leaves out, each by itself.
#[test]
fn what_the_proviso_leaves_out() {
    let calls = [
        (7, Call::Insert { before: NONE, lengths: [u32::MAX, 1, 0] }, 0),
        (7, Call::Set { id: 0, lengths: [u32::MAX, 1, 0] }, 0),
        (6, Call::Split { id: 0, lengths: [4, 1, 0], before: true }, 0),
        (6, Call::Split { id: 0, lengths: [1, 1, 1], before: false }, 0),
        (6, Call::Split { id: 0, lengths: [4, 0, 0], before: true }, 17),
        (10, Call::Set { id: 0, lengths: [1, 3, MOST_LINES + 1] }, 0),
        (10, Call::Reset { lengths: [1, 3, MOST_LINES + 1] }, 0),
        (10, Call::Insert { before: 9, lengths: [1, 3, MOST_LINES + 1] }, 4),
        (0, Call::Split { id: 0, lengths: [1, 0, 0], before: true }, 17),
        (0, Call::Split { id: 0, lengths: [1, 3, 0], before: true }, 17),
        (17, Call::Split { id: 0, lengths: [0, 0, 0], before: true }, 17),
        (17, Call::Split { id: 0, lengths: [3, 3, 0], before: true }, 17),
    ];
    for (there, call, here) in calls {
        // room for one more; prepare lengths 3 and 1, effect lengths 3 and 0
        let lengths = |prepare, effect| Lengths { prepare, effect, lines: 0 };
        let mut full = PrepareEffectTree::<4>::with_limit(3, lengths(3, 3)).expect("a good make");
        full.insert(None, lengths(1, 0)).expect("there is room");
        let mut copy = ReadingCopy::<4>::with_limit(3, 3).expect("a good make");
        copy.insert(None, 0).expect("there is room");
        assert_eq!((on_full(&mut full, call).0 .0, copy.play(call).0), (there, here), "{call:?}");
    }
    println!("{} calls that the proviso leaves out", calls.len());
}

/// Lists of effect lengths alone, with every word compared after every call; a row of such entries has no other lengths to refuse by.
#[test]
fn every_word_is_that_of_lib_rs() {
    let mut calls = 0;
    for (run, of) in runs(LISTS).iter().zip(0..) {
        for fan in FANS {
            let seed = of * 1_000 + fan as u64;
            at_fan!(fan, N => {
                let (number, tree) = make(fan, run.limit.min(120), run.first[EFFECT]);
                assert_eq!(number, 0);
                let mut copy = Alone::<N, _>::new(tree, run.limit.min(120), run.first[EFFECT]);
                let mut lister = Lister::new(seed, run.style);
                for drawn in 0..1_500 {
                    let Some(call) = lister.draw(&copy.row).call().and_then(beside::reading::there) else { continue };
                    copy.play(call, true).unwrap_or_else(|parted| panic!("call {drawn} of seed {seed}: {parted}"));
                    calls += 1;
                }
            });
        }
    }
    println!("{calls} calls, every word compared after each");
    assert!(calls > 40_000);
}
