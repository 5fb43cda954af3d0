//! The runs on planning trees find out a port that answers otherwise, refuses by another number or in another order, or leaves a wrong
//! word.

use beside::exports::Tree;
use beside::planning::{make, Beside, Plans};
use oracle::driver::Parted;
use oracle::lists::Sizes;
use oracle::planning::lists::{Lister, Style, EVEN};
use oracle::planning::{bounds, Call, Said};
use smelvock::raw::word::PRESENT;

/// The exports, and what stands in for one of them.
#[derive(Clone)]
struct StandIn {
    tree: Tree,
    wrong: Wrong,
}

type Wrong = fn(&mut Tree, Call) -> Said;

impl Plans for StandIn {
    fn play(&mut self, call: Call) -> Said {
        (self.wrong)(&mut self.tree, call)
    }

    fn audit(&self) -> [u32; 2] {
        self.tree.audit()
    }

    fn words(&self) -> [Vec<u32>; 4] {
        self.tree.words()
    }
}

fn right(tree: &mut Tree, call: Call) -> Said {
    tree.play(call)
}

/// A call on a copy.
fn asked(tree: &Tree, call: Call) -> Said {
    tree.clone().play(call)
}

/// The lowest and the highest total, as an entry at the end is answered them.
fn totals(tree: &Tree) -> [u32; 2] {
    let mut tree = tree.clone();
    let mut sums = [0; 2];
    for id in 0..tree.play(Call::Count).1[0] {
        let [low, high] = tree.play(Call::Lengths { id }).1;
        sums = [sums[0] + low, sums[1] + high];
    }
    sums
}

/// Answers every call as another one.
fn instead(tree: &mut Tree, call: Call, other: impl Fn(Call) -> Call) -> Said {
    right(tree, other(call))
}

fn first_in_the_lowest_lengths(tree: &mut Tree, call: Call) -> Said {
    match call {
        Call::FirstAt { position } if position < totals(tree)[0] => right(tree, Call::LastAt { position }),
        _ => right(tree, call),
    }
}

fn last_in_the_lowest_lengths_alone(tree: &mut Tree, call: Call) -> Said {
    match call {
        Call::LastAt { position } if position >= totals(tree)[0] => (5, [0; 2]),
        _ => right(tree, call),
    }
}

fn last_in_the_highest_lengths(tree: &mut Tree, call: Call) -> Said {
    instead(tree, call, |call| match call {
        Call::LastAt { position } => Call::FirstAt { position },
        call => call,
    })
}

/// Whether or not the last entry can be longer than nothing.
fn last_of_all(tree: &mut Tree, call: Call) -> Said {
    let said = right(tree, call);
    let Call::LastAt { position } = call else { return said };
    if said.0 != 0 || position < totals(tree)[0] {
        return said;
    }
    let mut last = said.1[0];
    while let (0, [next @ 0..=0xFFFF, _]) = asked(tree, Call::Next { id: last }) {
        last = next;
    }
    (0, [last, 0])
}

fn five_one_late(tree: &mut Tree, call: Call) -> Said {
    match (call, totals(tree)[1]) {
        (Call::FirstAt { position } | Call::LastAt { position }, total) if position == total && total > 0 => {
            right(tree, Call::LastAt { position: total - 1 })
        }
        _ => right(tree, call),
    }
}

fn earliest_for_latest(tree: &mut Tree, call: Call) -> Said {
    instead(tree, call, |call| match call {
        Call::Latest { id } => Call::Earliest { id },
        call => call,
    })
}

fn latest_for_earliest(tree: &mut Tree, call: Call) -> Said {
    instead(tree, call, |call| match call {
        Call::Earliest { id } => Call::Latest { id },
        call => call,
    })
}

fn insert_answers_the_earliest(tree: &mut Tree, call: Call) -> Said {
    match (call, right(tree, call)) {
        (Call::Insert { .. }, (0, [id, _])) => (0, [id, asked(tree, Call::Earliest { id }).1[0]]),
        (_, said) => said,
    }
}

/// 20 where 7 would be, or the other way round.
fn total_before_order(tree: &mut Tree, call: Call) -> Said {
    let said = right(tree, call);
    let swapped = match call {
        Call::Insert { before, bounds: own } => Call::Insert { before, bounds: bounds(own.high, own.low) },
        Call::Set { id, bounds: own } => Call::Set { id, bounds: bounds(own.high, own.low) },
        _ => return said,
    };
    if said.0 == 20 && asked(tree, swapped).0 == 7 {
        (7, [0; 2])
    } else {
        said
    }
}

/// The part left by a split isn't tested.
fn only_the_part_given(tree: &mut Tree, call: Call) -> Said {
    match (call, right(tree, call)) {
        (Call::Split { bounds, .. }, (20, _)) if !bounds.crossed() => (0, asked(tree, Call::Count).1),
        (_, said) => said,
    }
}

/// The part given isn't.
fn only_the_part_left(tree: &mut Tree, call: Call) -> Said {
    match (call, right(tree, call)) {
        (Call::Split { id, bounds: given, .. }, (20, _)) if given.crossed() => {
            let [low, high] = asked(tree, Call::Lengths { id }).1;
            let left = bounds(low - given.low, high - given.high);
            if left.crossed() {
                (20, [0; 2])
            } else {
                (0, asked(tree, Call::Count).1)
            }
        }
        (_, said) => said,
    }
}

fn order_before_hollow(tree: &mut Tree, call: Call) -> Said {
    match (call, right(tree, call)) {
        (Call::Split { .. }, (17, _)) => (20, [0; 2]),
        (_, said) => said,
    }
}

fn hollow_splits_done(tree: &mut Tree, call: Call) -> Said {
    match (call, right(tree, call)) {
        (Call::Split { .. }, (17, _)) => (0, asked(tree, Call::Count).1),
        (_, said) => said,
    }
}

/// The limit before the order of the lengths.
fn space_before_order(tree: &mut Tree, call: Call) -> Said {
    let said = right(tree, call);
    let full = asked(tree, Call::Insert { before: 0, bounds: bounds(0, 0) }).0 == 8;
    match call {
        Call::Insert { .. } | Call::Split { .. } if said.0 == 20 && full => (8, [0; 2]),
        _ => said,
    }
}

fn reset_out_of_order(tree: &mut Tree, call: Call) -> Said {
    match (call, right(tree, call)) {
        (Call::Reset { .. }, (20, _)) => (0, [0; 2]),
        (_, said) => said,
    }
}

fn set_keeps_the_lowest(tree: &mut Tree, call: Call) -> Said {
    match call {
        Call::Set { id, bounds: new } => {
            let low = asked(tree, Call::Lengths { id }).1[0].min(new.high);
            right(tree, Call::Set { id, bounds: if new.crossed() { new } else { bounds(low, new.high) } })
        }
        _ => right(tree, call),
    }
}

/// After a call of that kind, refused or not, a word of head or areas is another.
fn word_after(tree: &mut Tree, call: Call, kind: usize, refused: bool, change: fn(&mut Tree)) -> Said {
    let said = right(tree, call);
    if call.kind() == kind && (said.0 != 0) == refused {
        change(tree);
    }
    said
}

fn refused_insert_drops_the_finger(tree: &mut Tree, call: Call) -> Said {
    word_after(tree, call, 1, true, |tree| tree.head.words_mut()[PRESENT] = 0)
}

fn refused_split_writes(tree: &mut Tree, call: Call) -> Said {
    word_after(tree, call, 2, true, |tree| *tree.homes.words_mut().last_mut().expect("a home") ^= 1)
}

fn refused_lookup_writes(tree: &mut Tree, call: Call) -> Said {
    word_after(tree, call, 10, true, |tree| tree.leaves.words_mut()[1] ^= 1)
}

fn wrong_sum_after_set(tree: &mut Tree, call: Call) -> Said {
    word_after(tree, call, 3, false, |tree| tree.inners.words_mut()[3 + 1] ^= 1)
}

/// Lowest and highest length that both move up in a leaf and in every sum: nothing is unsound, and the entry is another.
fn longer_after_set(tree: &mut Tree, call: Call) -> Said {
    let said = right(tree, call);
    if let (Call::Set { id, bounds: new }, 0) = (call, said.0) {
        right(tree, Call::Set { id, bounds: bounds(new.low, new.high.saturating_add(1)) });
    }
    said
}

fn finger_left_alone(tree: &mut Tree, call: Call) -> Said {
    match call {
        Call::FirstAt { .. } | Call::LastAt { .. } => asked(tree, call),
        _ => right(tree, call),
    }
}

const WRONG: [(&str, Wrong); 22] = [
    ("first in the lowest lengths", first_in_the_lowest_lengths),
    ("last in the lowest lengths alone", last_in_the_lowest_lengths_alone),
    ("last in the highest lengths", last_in_the_highest_lengths),
    ("the last entry of all", last_of_all),
    ("5 one position late", five_one_late),
    ("earliest for latest", earliest_for_latest),
    ("latest for earliest", latest_for_earliest),
    ("insert answers the earliest position", insert_answers_the_earliest),
    ("7 before 20", total_before_order),
    ("20 of the part given alone", only_the_part_given),
    ("20 of the part left alone", only_the_part_left),
    ("20 for 17", order_before_hollow),
    ("no 17", hollow_splits_done),
    ("8 before 20", space_before_order),
    ("no 20 at reset", reset_out_of_order),
    ("set keeps the lowest length", set_keeps_the_lowest),
    ("a refused insert drops the finger", refused_insert_drops_the_finger),
    ("a refused split writes a home", refused_split_writes),
    ("a refused lookup writes a leaf", refused_lookup_writes),
    ("a wrong sum after set", wrong_sum_after_set),
    ("a longer entry after set", longer_after_set),
    ("a finger left alone", finger_left_alone),
];

/// Plays a list of 6,000 calls at fan 4, with every word compared.
fn played(wrong: Wrong, row_off: u32) -> Result<(), Parted> {
    let (number, tree) = make(4, 24, bounds(2, 4));
    assert_eq!(number, 0);
    let mut list = Beside::<4, _>::new(StandIn { tree, wrong }, 24, bounds(2, 4));
    list.row.entries[0].bounds.high += row_off;
    let mut lister = Lister::new(8, Style { weights: EVEN, sizes: Sizes::Small, close: 50, miss: 15 });
    for _ in 0..6_000 {
        list.play(lister.draw(&list.row), true)?;
    }
    Ok(())
}

#[test]
fn every_stand_in_is_found_out() {
    for (name, wrong) in WRONG {
        let parted = played(wrong, 0).expect_err(name);
        println!("{name}: {}", parted.chars().take(200).collect::<String>());
    }
    assert_eq!(played(right, 0), Ok(()));
    println!("{} stand-ins, each found out", WRONG.len());
}

/// A row with another entry is found out as well.
#[test]
fn a_wrong_row_is_found_out() {
    println!("{}", played(right, 1).unwrap_err().chars().take(200).collect::<String>());
}
