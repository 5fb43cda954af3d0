//! The runs on reading copies find out a copy that answers otherwise, refuses by another number, keeps another length or leaves a wrong
//! word.

use beside::exports::Tree;
use beside::reading::{make, there, Copies, Pair, Said};
use oracle::driver::Parted;
use oracle::lists::{with_resets, Lister, Sizes, Style, EVEN};
use oracle::record::Call;
use oracle::state::{EFFECT, PREPARE};
use smelvock::raw::word::{ENTRIES, PRESENT};

/// The exports, and what stands in for one of them.
#[derive(Clone)]
struct StandIn {
    tree: Tree,
    wrong: Wrong,
}

type Wrong = fn(&mut Tree, Call) -> Said;

impl Copies for StandIn {
    fn play(&mut self, call: Call) -> Said {
        (self.wrong)(&mut self.tree, call)
    }

    fn words(&self) -> [Vec<u32>; 4] {
        self.tree.words()
    }
}

fn right(tree: &mut Tree, call: Call) -> Said {
    tree.play(call)
}

/// A call on a copy of the tree.
fn asked(tree: &Tree, call: Call) -> Said {
    tree.clone().play(call)
}

/// The prepare length taken for the effect one.
fn prepare_for_effect(tree: &mut Tree, call: Call) -> Said {
    let other = |lengths: [u32; 3]| [0, lengths[PREPARE], 0];
    right(
        tree,
        match call {
            Call::Insert { before, lengths } => Call::Insert { before, lengths: other(lengths) },
            Call::Split { id, lengths, before } => Call::Split { id, lengths: other(lengths), before },
            Call::Set { id, lengths } => Call::Set { id, lengths: other(lengths) },
            Call::Reset { lengths } => Call::Reset { lengths: other(lengths) },
            call => call,
        },
    )
}

fn flag_forgotten(tree: &mut Tree, call: Call) -> Said {
    match call {
        Call::Split { id, lengths, .. } => right(tree, Call::Split { id, lengths, before: true }),
        _ => right(tree, call),
    }
}

fn hollow_splits_done(tree: &mut Tree, call: Call) -> Said {
    match (call, right(tree, call)) {
        (Call::Split { .. }, (17, _)) => (0, [asked(tree, Call::Insert { before: 0, lengths: [0; 3] }).1[0], 0, 0]),
        (_, said) => said,
    }
}

fn hollow_by_six(tree: &mut Tree, call: Call) -> Said {
    match right(tree, call) {
        (17, values) => (6, values),
        said => said,
    }
}

fn total_taken(tree: &mut Tree, call: Call) -> Said {
    match right(tree, call) {
        (7, values) => (0, values),
        said => said,
    }
}

/// The end of the entry for its start.
fn rank_behind(tree: &mut Tree, call: Call) -> Said {
    match (call, right(tree, call)) {
        (Call::Rank { view, .. }, (0, [at, ..])) => {
            let length = asked(tree, Call::Lookup { view, index: at }).1;
            (0, [at + (length[2] == at) as u32, 0, 0])
        }
        (_, said) => said,
    }
}

fn offset_for_position(tree: &mut Tree, call: Call) -> Said {
    match (call, right(tree, call)) {
        (Call::Lookup { .. }, (0, [id, offset, _])) => (0, [id, offset, offset]),
        (_, said) => said,
    }
}

/// The entry before the one found, where that has no length and so stands at the same position.
fn empty_entry_found(tree: &mut Tree, call: Call) -> Said {
    match (call, right(tree, call)) {
        (Call::Lookup { view, .. }, (0, [found, 0, at])) => {
            let ends_there = |id: &u32| {
                asked(tree, Call::Next { id: *id }).1[0] == found
                    && asked(tree, Call::Rank { view, id: *id }).1[0] == at
            };
            (0, [(0..tree.word(ENTRIES)).find(ends_there).unwrap_or(found), 0, at])
        }
        (_, said) => said,
    }
}

fn five_one_late(tree: &mut Tree, call: Call) -> Said {
    match (call, right(tree, call)) {
        (Call::Lookup { view, index }, (5, _)) if index > 0 => asked(tree, Call::Lookup { view, index: index - 1 }),
        (_, said) => said,
    }
}

fn none_from_every_next(tree: &mut Tree, call: Call) -> Said {
    match (call, right(tree, call)) {
        (Call::Next { .. }, (0, _)) => (0, [u32::MAX, 0, 0]),
        (_, said) => said,
    }
}

fn compare_turned(tree: &mut Tree, call: Call) -> Said {
    match call {
        Call::Compare { first, second } => right(tree, Call::Compare { first: second, second: first }),
        _ => right(tree, call),
    }
}

fn insert_answers_its_end(tree: &mut Tree, call: Call) -> Said {
    match (call, right(tree, call)) {
        (Call::Insert { lengths, .. }, (0, [id, at, _])) => (0, [id, at + lengths[EFFECT], 0]),
        (_, said) => said,
    }
}

/// After a call, refused or not, a word of head or areas is another.
fn word_after(tree: &mut Tree, call: Call, meant: bool, refused: bool, change: fn(&mut Tree)) -> Said {
    let said = right(tree, call);
    if meant && (said.0 != 0) == refused {
        change(tree);
    }
    said
}

fn refused_insert_drops_the_finger(tree: &mut Tree, call: Call) -> Said {
    let meant = matches!(call, Call::Insert { .. }) && tree.word(PRESENT) == 1;
    word_after(tree, call, meant, true, |tree| tree.head.words_mut()[PRESENT] = 0)
}

fn refused_split_writes(tree: &mut Tree, call: Call) -> Said {
    let meant = matches!(call, Call::Split { .. });
    word_after(tree, call, meant, true, |tree| *tree.homes.words_mut().last_mut().expect("a home") ^= 1)
}

fn wrong_sum_after_set(tree: &mut Tree, call: Call) -> Said {
    let meant = matches!(call, Call::Set { .. });
    word_after(tree, call, meant, false, |tree| tree.inners.words_mut()[3 + 1] ^= 1)
}

/// Longer in its leaf and in every sum: nothing is unsound, and the entry is another.
fn longer_after_set(tree: &mut Tree, call: Call) -> Said {
    let said = right(tree, call);
    if let (Call::Set { id, lengths }, 0) = (call, said.0) {
        right(tree, Call::Set { id, lengths: [0, lengths[EFFECT].saturating_add(1), 0] });
    }
    said
}

fn finger_left_alone(tree: &mut Tree, call: Call) -> Said {
    match call {
        Call::Lookup { .. } => asked(tree, call),
        _ => right(tree, call),
    }
}

const WRONG: [(&str, Wrong); 17] = [
    ("the prepare length for the effect one", prepare_for_effect),
    ("the split's flag forgotten", flag_forgotten),
    ("no 17", hollow_splits_done),
    ("6 for 17", hollow_by_six),
    ("no 7", total_taken),
    ("the position behind an entry's first character", rank_behind),
    ("the offset for the position", offset_for_position),
    ("an empty entry found", empty_entry_found),
    ("5 one position late", five_one_late),
    ("none from every next", none_from_every_next),
    ("compared the other way round", compare_turned),
    ("insert answers the end of the new entry", insert_answers_its_end),
    ("a refused insert drops the finger", refused_insert_drops_the_finger),
    ("a refused split writes a home", refused_split_writes),
    ("a wrong sum after set", wrong_sum_after_set),
    ("a longer entry after set", longer_after_set),
    ("a finger left alone", finger_left_alone),
];

const FIRST: [u32; 3] = [2, 3, 1];

/// Plays a list of 8,000 calls at fan 4, with every word compared. The full tree's row is off by so much.
fn played(wrong: Wrong, row_off: u32) -> Result<(), Parted> {
    let (number, tree) = make(4, 24, FIRST[EFFECT]);
    assert_eq!(number, 0);
    let mut pair = Pair::<4, _>::new(StandIn { tree, wrong }, 24, FIRST);
    pair.row.entries[0].lengths[EFFECT] += row_off;
    let mut lister = Lister::new(8, Style { weights: with_resets(EVEN), sizes: Sizes::NearEnd, close: 50, miss: 15 });
    for _ in 0..8_000 {
        if let Some(call) = lister.draw(&pair.row).call().and_then(there) {
            pair.play(call, true)?;
        }
    }
    Ok(())
}

#[test]
fn every_stand_in_is_found_out() {
    for (name, wrong) in WRONG {
        let parted = played(wrong, 0).expect_err(name);
        println!("{name}: {}", parted.chars().take(200).collect::<String>());
    }
    assert_eq!(played(right, 0), Ok(()));
    println!("{} stand-ins, each found out", WRONG.len());
}

/// A copy that was made with another length than the full tree's effect one is found out by that tree's answers, though it is right by
/// its own row.
#[test]
fn another_copy_is_found_out() {
    let (number, tree) = make(4, 24, 4);
    assert_eq!(number, 0);
    let mut pair = Pair::<4, _>::new(tree.clone(), 24, FIRST);
    pair.copy = beside::reading::Alone::new(tree, 24, 4);
    let call = Call::Lookup { view: EFFECT, index: FIRST[EFFECT] };
    println!("{}", pair.play(call, true).unwrap_err());
    // and so is a wrong row of the full tree
    println!("{}", played(right, 1).unwrap_err().chars().take(200).collect::<String>());
}
