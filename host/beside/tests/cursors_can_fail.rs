//! The runs on any cursors find out a port that answers another number than lib.rs's state wants, in each call by itself, and a list
//! that has not met everything.

use beside::any_cursor::{Beside, List, Style};
use beside::cursors::{GIVING, TAKING};
use beside::exports::{Answer, Export, Given, Tree};
use beside::met::{needed, Met};
use beside::plays::Plays;
use beside::words::on_zeros;
use oracle::driver::Parted;
use oracle::state::{node_words, EFFECT, LINES, MOST_LINES};
use smelvock::raw::word::{ENTRIES, FAN, LEAVES, LIMIT};
use smelvock::raw::{Cursor, Lengths};

type Wrong = fn(&mut Tree, Export, &Given) -> Answer;

/// The exports with one of them gone wrong.
struct StandIn {
    tree: Tree,
    wrong: Wrong,
    only: Export,
}

impl Plays for StandIn {
    fn play(&mut self, export: Export, given: &Given) -> Answer {
        let at_end = export == Export::Insert && given.end == 1;
        if export == self.only && !at_end {
            (self.wrong)(&mut self.tree, export, given)
        } else {
            export.play(&mut self.tree, given)
        }
    }

    fn words(&self) -> [Vec<u32>; 4] {
        self.tree.words()
    }
}

fn right(tree: &mut Tree, export: Export, given: &Given) -> Answer {
    export.play(tree, given)
}

fn renumbered(answer: Answer, old: u32, new: u32) -> Answer {
    Answer { number: if answer.number == old { new } else { answer.number }, ..answer }
}

fn three_for_thirteen(tree: &mut Tree, export: Export, given: &Given) -> Answer {
    renumbered(right(tree, export, given), 13, 3)
}

fn three_for_fourteen(tree: &mut Tree, export: Export, given: &Given) -> Answer {
    renumbered(right(tree, export, given), 14, 3)
}

fn fourteen_for_thirteen(tree: &mut Tree, export: Export, given: &Given) -> Answer {
    renumbered(right(tree, export, given), 13, 14)
}

fn thirteen_for_fourteen(tree: &mut Tree, export: Export, given: &Given) -> Answer {
    renumbered(right(tree, export, given), 14, 13)
}

/// The len of a leaf in use.
fn len(tree: &Tree, at: Cursor) -> Option<u32> {
    let words = node_words(tree.word(FAN));
    (at.leaf < tree.word(LEAVES)).then(|| tree.leaves.words()[at.leaf as usize * words])
}

fn leaf_before_stamp(tree: &mut Tree, export: Export, given: &Given) -> Answer {
    let number = if len(tree, given.at).is_none() { 13 } else { 3 };
    renumbered(right(tree, export, given), 3, number)
}

fn slot_before_stamp(tree: &mut Tree, export: Export, given: &Given) -> Answer {
    let number = if len(tree, given.at).is_some_and(|len| given.at.slot >= len) { 14 } else { 3 };
    renumbered(right(tree, export, given), 3, number)
}

fn stamped(tree: &Tree, at: Cursor) -> Cursor {
    Cursor { stamp: tree.stamp(), ..at }
}

fn stamp_not_tested(tree: &mut Tree, export: Export, given: &Given) -> Answer {
    let at = stamped(tree, given.at);
    right(tree, export, &Given { at, ..*given })
}

/// A stamp of 32 bits.
fn low_word_alone(tree: &mut Tree, export: Export, given: &Given) -> Answer {
    let alike = given.at.stamp as u32 == tree.stamp() as u32;
    let answered: Wrong = if alike { stamp_not_tested } else { right };
    answered(tree, export, given)
}

fn high_word_alone(tree: &mut Tree, export: Export, given: &Given) -> Answer {
    let alike = given.at.stamp >> 32 == tree.stamp() >> 32;
    let answered: Wrong = if alike { stamp_not_tested } else { right };
    answered(tree, export, given)
}

/// A wrong stamp is let pass where a leaf in use has such a slot.
fn old_cursor_taken_where_its_slot_is_in_use(tree: &mut Tree, export: Export, given: &Given) -> Answer {
    let in_use = len(tree, given.at).is_some_and(|len| given.at.slot < len);
    let answered: Wrong = if in_use { stamp_not_tested } else { right };
    answered(tree, export, given)
}

fn slot_at_len_taken(tree: &mut Tree, export: Export, given: &Given) -> Answer {
    let number = if len(tree, given.at) == Some(given.at.slot) { 0 } else { 14 };
    renumbered(right(tree, export, given), 14, number)
}

fn last_slot_refused(tree: &mut Tree, export: Export, given: &Given) -> Answer {
    let last = len(tree, given.at) == Some(given.at.slot.wrapping_add(1));
    if last && given.at == stamped(tree, given.at) {
        return Answer { number: 14, values: vec![] };
    }
    right(tree, export, given)
}

fn refused_for_its_cursor(answer: &Answer) -> bool {
    [3, 13, 14].contains(&answer.number)
}

fn value_beside_the_number(tree: &mut Tree, export: Export, given: &Given) -> Answer {
    let mut answer = right(tree, export, given);
    if refused_for_its_cursor(&answer) {
        answer.values = vec![0, given.at.slot];
    }
    answer
}

fn word_written(tree: &mut Tree, export: Export, given: &Given) -> Answer {
    let answer = right(tree, export, given);
    if answer.number == 14 {
        *tree.homes.words_mut().last_mut().expect("a limit is never 0") ^= 1;
    }
    answer
}

/// What stands in for each call that takes cursors.
const WRONG: [(&str, Wrong); 14] = [
    ("3 for 13", three_for_thirteen),
    ("3 for 14", three_for_fourteen),
    ("14 for 13", fourteen_for_thirteen),
    ("13 for 14", thirteen_for_fourteen),
    ("the leaf before the stamp", leaf_before_stamp),
    ("the slot before the stamp", slot_before_stamp),
    ("the stamp not tested", stamp_not_tested),
    ("the stamp's low word alone tested", low_word_alone),
    ("the stamp's high word alone tested", high_word_alone),
    ("an old cursor taken where its slot is in use", old_cursor_taken_where_its_slot_is_in_use),
    ("a slot at the len taken", slot_at_len_taken),
    ("the last slot refused", last_slot_refused),
    ("a value beside the number", value_beside_the_number),
    ("a word written although refused", word_written),
];

/// The numbers of a comparison's two cursors.
fn numbers(tree: &Tree, given: &Given) -> [u32; 2] {
    [given.at, given.other].map(|at| Export::Id.play(&mut tree.clone(), &Given { at, ..*given }).number)
}

fn second_first(tree: &mut Tree, export: Export, given: &Given) -> Answer {
    match numbers(tree, given) {
        [_, 0] => right(tree, export, given),
        [_, number] => Answer { number, values: vec![0] },
    }
}

/// Both stamps, then both leaves, then both slots.
fn part_by_part(tree: &mut Tree, export: Export, given: &Given) -> Answer {
    match numbers(tree, given) {
        [first, second] if first != 0 && second != 0 => Answer { number: first.min(second), values: vec![0] },
        _ => right(tree, export, given),
    }
}

fn second_not_tested(tree: &mut Tree, export: Export, given: &Given) -> Answer {
    match numbers(tree, given) {
        [0, number] if number != 0 => Answer { number: 0, values: vec![0] },
        _ => right(tree, export, given),
    }
}

fn second_by_three(tree: &mut Tree, export: Export, given: &Given) -> Answer {
    match numbers(tree, given) {
        [0, number] if number != 0 => Answer { number: 3, values: vec![0] },
        _ => right(tree, export, given),
    }
}

/// A split's second cursor bears the stamp from before.
fn split_stamped_late(tree: &mut Tree, export: Export, given: &Given) -> Answer {
    let mut answer = right(tree, export, given);
    if answer.number == 0 {
        answer.values[7] -= 1;
    }
    answer
}

/// The entry that a call makes isn't counted.
fn not_counted(tree: &mut Tree, export: Export, given: &Given) -> Answer {
    let stamp = tree.stamp();
    let answer = right(tree, export, given);
    *tree = tree.stamped(stamp);
    answer
}

/// A reset begins to count anew, as make does.
fn counted_anew(tree: &mut Tree, export: Export, given: &Given) -> Answer {
    let answer = right(tree, export, given);
    if answer.number == 0 {
        *tree = tree.stamped(1);
    }
    answer
}

/// The stamp is the number of entries, as it was before CR 8.
fn entries_counted(tree: &mut Tree, export: Export, given: &Given) -> Answer {
    let answer = right(tree, export, given);
    *tree = tree.stamped(tree.word(ENTRIES) as u64);
    answer
}

fn counted_twice(tree: &mut Tree, export: Export, given: &Given) -> Answer {
    let stamp = tree.stamp();
    let answer = right(tree, export, given);
    *tree = tree.stamped(tree.stamp() + (tree.stamp() - stamp));
    answer
}

fn with_lines(given: &Given, lines: u32) -> Given {
    Given { lengths: Lengths { lines, ..given.lengths }, ..*given }
}

fn line_ends_dropped(tree: &mut Tree, export: Export, given: &Given) -> Answer {
    let lines = if given.lengths.lines > MOST_LINES { given.lengths.lines } else { 0 };
    right(tree, export, &with_lines(given, lines))
}

fn too_many_line_ends_taken(tree: &mut Tree, export: Export, given: &Given) -> Answer {
    right(tree, export, &with_lines(given, given.lengths.lines.min(MOST_LINES)))
}

/// The number of a cursor is told before that of the line ends.
fn line_ends_after_the_cursor(tree: &mut Tree, export: Export, given: &Given) -> Answer {
    match Export::Id.play(&mut tree.clone(), given).number {
        0 => right(tree, export, given),
        number => Answer { number, values: vec![] },
    }
}

fn lines_by_the_effect_view(tree: &mut Tree, export: Export, given: &Given) -> Answer {
    let view = if given.view == LINES as u32 { EFFECT as u32 } else { given.view };
    right(tree, export, &Given { view, ..*given })
}

fn no_line_ends(tree: &mut Tree, export: Export, given: &Given) -> Answer {
    let mut answer = right(tree, export, given);
    answer.values[LINES] = 0;
    answer
}

/// A split that moves more line ends than the entry has moves all.
fn six_blind_to_line_ends(tree: &mut Tree, export: Export, given: &Given) -> Answer {
    match Export::Lengths.play(&mut tree.clone(), given) {
        Answer { number: 0, values } if given.lengths.lines <= MOST_LINES => {
            right(tree, export, &with_lines(given, given.lengths.lines.min(values[LINES])))
        }
        _ => right(tree, export, given),
    }
}

/// A hollow split makes its entry.
fn hollow_split_taken(tree: &mut Tree, export: Export, given: &Given) -> Answer {
    renumbered(right(tree, export, given), 17, 0)
}

/// A split that moves all is taken.
fn moved_part_alone_tested(tree: &mut Tree, export: Export, given: &Given) -> Answer {
    let answer = right(tree, export, given);
    if given.lengths == Lengths::default() {
        return answer;
    }
    renumbered(answer, 17, 0)
}

/// A split that moves nothing is taken.
fn part_left_alone_tested(tree: &mut Tree, export: Export, given: &Given) -> Answer {
    let answer = right(tree, export, given);
    if given.lengths == Lengths::default() {
        return renumbered(answer, 17, 0);
    }
    answer
}

/// A split that moves line ends alone is refused as one that moves nothing.
fn seventeen_blind_to_line_ends(tree: &mut Tree, export: Export, given: &Given) -> Answer {
    let before = tree.clone();
    let answer = right(tree, export, given);
    if answer.number == 0 && [given.lengths.prepare, given.lengths.effect] == [0; 2] {
        *tree = before;
        return Answer { number: 17, values: vec![] };
    }
    answer
}

/// 8 is tested before 17.
fn seventeen_behind_eight(tree: &mut Tree, export: Export, given: &Given) -> Answer {
    let full = tree.word(ENTRIES) == tree.word(LIMIT);
    renumbered(right(tree, export, given), 17, if full { 8 } else { 17 })
}

/// 17 for a split that moves no character and too many line ends.
fn seventeen_before_six(tree: &mut Tree, export: Export, given: &Given) -> Answer {
    let nothing = [given.lengths.prepare, given.lengths.effect] == [0; 2];
    renumbered(right(tree, export, given), 6, if nothing { 17 } else { 6 })
}

/// What stands in for each call that gives lengths and takes a cursor.
const WRONG_GIVING: [(&str, Wrong); 3] = [
    ("line ends dropped", line_ends_dropped),
    ("too many line ends taken", too_many_line_ends_taken),
    ("line ends after the cursor", line_ends_after_the_cursor),
];

/// What stands in for one call alone.
const WRONG_IN: [(Export, &str, Wrong); 22] = [
    (Export::Cmp, "the second cursor first", second_first),
    (Export::Cmp, "both stamps, both leaves, both slots", part_by_part),
    (Export::Cmp, "the second cursor not tested", second_not_tested),
    (Export::Cmp, "the second cursor by 3 whatever it lacks", second_by_three),
    (Export::SplitEntry, "an old stamp in the second cursor", split_stamped_late),
    (Export::SplitEntry, "a split that isn't counted", not_counted),
    (Export::Insert, "an insertion that isn't counted", not_counted),
    (Export::Insert, "an insertion that is counted twice", counted_twice),
    (Export::Reset, "a reset that isn't counted", not_counted),
    (Export::Reset, "a reset that counts anew", counted_anew),
    (Export::Locate, "a lookup that puts the number of entries for the stamp", entries_counted),
    (Export::SplitEntry, "6 blind to line ends", six_blind_to_line_ends),
    (Export::SplitEntry, "a hollow split taken", hollow_split_taken),
    (Export::SplitEntry, "a split that moves all taken", moved_part_alone_tested),
    (Export::SplitEntry, "a split that moves nothing taken", part_left_alone_tested),
    (Export::SplitEntry, "17 blind to line ends", seventeen_blind_to_line_ends),
    (Export::SplitEntry, "17 behind 8", seventeen_behind_eight),
    (Export::SplitEntry, "17 before 6", seventeen_before_six),
    (Export::Lengths, "no line ends", no_line_ends),
    (Export::EntryToCharIndex, "lines by the effect view", lines_by_the_effect_view),
    (Export::Locate, "lines by the effect view", lines_by_the_effect_view),
    (Export::CharIndexToEntry, "lines by the effect view", lines_by_the_effect_view),
];

const STYLE: Style = Style { name: "can fail", limit: 120, reset_every: 1_000 };

/// Plays a list of 12,000 calls at fan 4.
fn play(wrong: Wrong, only: Export) -> Result<Met, Parted> {
    let tree = Tree::of(&on_zeros::<4>(STYLE.limit, [2, 1, 1]));
    let beside = Beside::<4, _>::new(StandIn { tree, wrong, only }, STYLE.limit, [2, 1, 1]);
    let mut list = List::new(beside, STYLE, 5, 1);
    list.play(12_000).map(|()| list.met)
}

#[test]
fn every_stand_in_is_found_out() {
    let of_each = TAKING.into_iter().flat_map(|export| WRONG.map(|(name, wrong)| (export, name, wrong)));
    let giving = TAKING.into_iter().filter(|export| GIVING.contains(export));
    let of_giving = giving.flat_map(|export| WRONG_GIVING.map(|(name, wrong)| (export, name, wrong)));
    for (export, name, wrong) in of_each.chain(of_giving).chain(WRONG_IN) {
        let parted = play(wrong, export).expect_err(name);
        assert!(parted.contains(&format!("{export:?} Given")), "{name}: {parted}");
        println!("{export:?}, {name}: {parted}");
    }
    assert!(play(right, Export::Cmp).unwrap().whole(), "what is not wrong passes");
}

/// A run is not whole if one thing is never met.
#[test]
fn what_is_never_met_is_noticed() {
    let whole = play(right, Export::Cmp).unwrap();
    for thing in needed() {
        let mut met = whole.clone();
        met.things.remove(&thing);
        assert!(whole.whole() && !met.whole(), "{thing:?}");
    }
    println!("{} things are needed", needed().len());
}
