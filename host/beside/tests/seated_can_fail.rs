//! The runs on trees with seats find out a port that keeps other rules, in inserts and in splits by themselves.

use beside::any_cursor::{Beside, List, Style};
use beside::exports::{Answer, Export, Given, Tree};
use beside::plays::Plays;
use beside::seated::Seated;
use beside::words::seated;
use oracle::driver::Parted;
use oracle::lists::{with_resets, Lister, Sizes, Style as Drawn, GROWING};
use oracle::random::Random;
use oracle::record::Call;
use oracle::row::Row;
use smelvock::raw::word::{CHARGES, ENTRIES, LIMIT, SHARES};

type Wrong = fn(&mut Tree, Export, &Given) -> Answer;

/// The exports with one of them gone wrong.
#[derive(Clone)]
struct StandIn {
    tree: Tree,
    wrong: Wrong,
    only: Export,
}

impl Plays for StandIn {
    fn play(&mut self, export: Export, given: &Given) -> Answer {
        let answered = if export == self.only { self.wrong } else { right };
        answered(&mut self.tree, export, given)
    }

    fn words(&self) -> [Vec<u32>; 4] {
        self.tree.words()
    }
}

fn right(tree: &mut Tree, export: Export, given: &Given) -> Answer {
    export.play(tree, given)
}

fn put(tree: &mut Tree, word: usize, value: u32) {
    *tree = tree.with(word, value);
}

/// The call on a tree with other words in its head, which then get back what they were.
fn with_other(
    tree: &mut Tree,
    words: std::ops::Range<usize>,
    value: u32,
    played: impl FnOnce(&mut Tree) -> Answer,
) -> Answer {
    let before = tree.head.words()[words.clone()].to_vec();
    words.clone().for_each(|word| put(tree, word, value));
    let answer = played(tree);
    tree.head.words_mut()[words].copy_from_slice(&before);
    answer
}

/// The seat of a call, where it is one of the eight.
fn seat(given: &Given) -> Option<usize> {
    given.seat.filter(|&seat| seat < 8).map(|seat| seat as usize)
}

fn at_share(tree: &Tree, given: &Given) -> bool {
    seat(given).is_some_and(|seat| tree.word(SHARES + seat) <= tree.word(CHARGES + seat))
}

fn charge_forgotten(tree: &mut Tree, export: Export, given: &Given) -> Answer {
    let before = tree.head.words()[CHARGES..].to_vec();
    let answer = right(tree, export, given);
    tree.head.words_mut()[CHARGES..].copy_from_slice(&before);
    answer
}

/// The entry is charged to another seat.
fn charged_to(tree: &mut Tree, export: Export, given: &Given, other: fn(usize) -> usize) -> Answer {
    let answer = charge_forgotten(tree, export, given);
    if let Some(seat) = seat(given).filter(|_| answer.number == 0) {
        let word = CHARGES + other(seat);
        put(tree, word, tree.word(word) + 1);
    }
    answer
}

fn charged_to_seat_0(tree: &mut Tree, export: Export, given: &Given) -> Answer {
    charged_to(tree, export, given, |_| 0)
}

fn charged_to_the_next(tree: &mut Tree, export: Export, given: &Given) -> Answer {
    charged_to(tree, export, given, |seat| (seat + 1) % 8)
}

fn charged_although_refused(tree: &mut Tree, export: Export, given: &Given) -> Answer {
    let answer = right(tree, export, given);
    if let Some(seat) = seat(given).filter(|_| answer.number == 18) {
        put(tree, CHARGES + seat, tree.word(CHARGES + seat) + 1);
    }
    answer
}

fn eight_for_eighteen(tree: &mut Tree, export: Export, given: &Given) -> Answer {
    let answer = right(tree, export, given);
    Answer { number: if answer.number == 18 { 8 } else { answer.number }, ..answer }
}

/// Whoever calls gets an entry while there is one.
fn shares_not_kept(tree: &mut Tree, export: Export, given: &Given) -> Answer {
    with_other(tree, SHARES..CHARGES, 0, |tree| right(tree, export, given))
}

/// The last free entry goes to a seat that has used its share, where it is another's.
fn last_entry_given_away(tree: &mut Tree, export: Export, given: &Given) -> Answer {
    let last = tree.word(ENTRIES) + 1 == tree.word(LIMIT);
    let answered: Wrong = if last { shares_not_kept } else { right };
    answered(tree, export, given)
}

fn eighteen_instead(tree: &mut Tree, before: Tree, answer: Answer, refuse: bool) -> Answer {
    if answer.number != 0 || !refuse {
        return answer;
    }
    *tree = before;
    Answer { number: 18, values: vec![] }
}

/// A seat gets its share and nothing more, whatever is free.
fn never_over_its_share(tree: &mut Tree, export: Export, given: &Given) -> Answer {
    let (before, refuse) = (tree.clone(), at_share(tree, given));
    let answer = right(tree, export, given);
    eighteen_instead(tree, before, answer, refuse)
}

/// The last free entry is refused to the seat whose share it is.
fn last_entry_refused(tree: &mut Tree, export: Export, given: &Given) -> Answer {
    let before = tree.clone();
    let answer = right(tree, export, given);
    let last = before.word(ENTRIES) + 1 == before.word(LIMIT);
    eighteen_instead(tree, before, answer, last)
}

/// One entry less than the others have unused is enough for a seat at its share to be refused.
fn refused_one_early(tree: &mut Tree, export: Export, given: &Given) -> Answer {
    let (before, over) = (tree.clone(), at_share(tree, given));
    let answer = right(tree, export, given);
    let unused: u32 = (0..8).map(|seat| before.word(SHARES + seat).saturating_sub(before.word(CHARGES + seat))).sum();
    let one_more = before.word(LIMIT) - before.word(ENTRIES) == unused + 1;
    eighteen_instead(tree, before, answer, over && one_more)
}

fn for_nobody_by_seat_0(tree: &mut Tree, export: Export, given: &Given) -> Answer {
    right(tree, export, &Given { seat: given.seat.or(Some(0)), ..*given })
}

fn for_seat_8_by_seat_0(tree: &mut Tree, export: Export, given: &Given) -> Answer {
    right(tree, export, &Given { seat: given.seat.map(|seat| seat % 8), ..*given })
}

/// The number of a cursor is told before that of a bad seat.
fn seat_after_the_cursor(tree: &mut Tree, export: Export, given: &Given) -> Answer {
    let answer = right(&mut tree.clone(), export, &Given { seat: Some(0), ..*given });
    match answer.number {
        3 | 13 | 14 => answer,
        _ => right(tree, export, given),
    }
}

/// 18 before 17, 7 and 6.
fn space_before_lengths(tree: &mut Tree, export: Export, given: &Given) -> Answer {
    let lengths = smelvock::raw::Lengths { prepare: 1, effect: 0, lines: 0 };
    let answer = right(tree, export, given);
    let without = Export::Insert.play(&mut tree.clone(), &Given { lengths, end: 1, ..*given });
    match answer.number {
        6 | 7 | 17 if without.number == 18 => Answer { number: 18, ..answer },
        _ => answer,
    }
}

/// What stands in for inserts, and for splits.
const WRONG: [(&str, Wrong); 14] = [
    ("a charge forgotten", charge_forgotten),
    ("charged to seat 0", charged_to_seat_0),
    ("charged to the next seat", charged_to_the_next),
    ("charged although refused", charged_although_refused),
    ("8 for 18", eight_for_eighteen),
    ("shares not kept", shares_not_kept),
    ("the last free entry given away", last_entry_given_away),
    ("never over its share", never_over_its_share),
    ("the last free entry refused", last_entry_refused),
    ("refused one entry early", refused_one_early),
    ("nobody taken for seat 0", for_nobody_by_seat_0),
    ("seat 8 taken for seat 0", for_seat_8_by_seat_0),
    ("the seat after the cursor", seat_after_the_cursor),
    ("space before lengths", space_before_lengths),
];

fn charges_kept(tree: &mut Tree, export: Export, given: &Given) -> Answer {
    charge_forgotten(tree, export, given)
}

fn shares_dropped(tree: &mut Tree, export: Export, given: &Given) -> Answer {
    let answer = right(tree, export, given);
    tree.head.words_mut()[SHARES..CHARGES].fill(0);
    answer
}

/// What stands in for one call alone.
const WRONG_IN: [(Export, &str, Wrong); 4] = [
    (Export::Reset, "charges kept", charges_kept),
    (Export::Reset, "shares dropped", shares_dropped),
    (Export::SetLengths, "shares dropped", shares_dropped),
    (Export::Locate, "shares dropped", shares_dropped),
];

/// The seats that call seldom have small shares, so that every list fills the tree.
const PLAN: (u32, [u32; 8]) = (40, [8, 12, 5, 2, 1, 0, 0, 1]);

fn stand_in(wrong: Wrong, only: Export) -> (StandIn, Row) {
    let (limit, shares) = PLAN;
    let row = Row::seated(limit, [2, 1, 1], shares).expect("they sum to 29");
    (StandIn { tree: Tree::of(&seated::<4>(limit, [2, 1, 1], shares)), wrong, only }, row)
}

/// Plays a list of 40,000 calls on any cursors at fan 4.
fn by_cursor(wrong: Wrong, only: Export) -> Result<(), Parted> {
    let (port, row) = stand_in(wrong, only);
    let style = Style { name: "can fail", limit: PLAN.0, reset_every: 1_500 };
    List::new(Beside::<4, _>::seated(port, row), style, 5, 1).play(40_000)
}

/// Plays a list of 12,000 calls by id at fan 4; a full tree is soon begun anew.
fn by_id(wrong: Wrong, only: Export) -> Result<(), Parted> {
    let (port, row) = stand_in(wrong, only);
    let mut list = Seated::<4, _>::new(port, row);
    let style = Drawn { weights: with_resets(GROWING), sizes: Sizes::Small, close: 50, miss: 6 };
    let (mut lister, mut random) = (Lister::new(6, style), Random::new(7));
    for _ in 0..12_000 {
        if list.row.free() == 0 && random.below(20) == 0 {
            list.play(None, Call::Reset { lengths: [2, 1, 1] })?;
        }
        let seat = Some(random.below(9) as u32).filter(|_| random.below(50) > 0);
        if let Some(call) = lister.draw(&list.row).call() {
            list.play(seat, call)?;
        }
    }
    Ok(())
}

#[test]
fn every_stand_in_is_found_out() {
    let of_each = [Export::Insert, Export::SplitEntry]
        .into_iter()
        .flat_map(|export| WRONG.map(|(name, wrong)| (export, name, wrong)));
    let mut found = 0;
    for (export, name, wrong) in of_each.chain(WRONG_IN) {
        let parted = by_cursor(wrong, export).expect_err(name);
        assert!(parted.contains(&format!("{export:?} Given")), "{name}: {parted}");
        println!("{export:?}, {name}: {parted}");
        // a call by id has no bad cursor
        if name != "the seat after the cursor" {
            by_id(wrong, export).expect_err(name);
        }
        found += 1;
    }
    assert_eq!((by_cursor(right, Export::Insert), by_id(right, Export::Insert)), (Ok(()), Ok(())));
    println!("{found} stand-ins, each found out");
}
