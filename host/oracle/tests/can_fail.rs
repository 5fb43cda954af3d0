//! The tests can fail: wrong trees played beside the row are caught, by full checks at once and by
//! the answers alone in the end.

use oracle::calls::Calls;
use oracle::cursors::{Source, GIVERS, HANDED};
use oracle::driver::{Driver, Parted};
use oracle::fans::{rust, Setup};
use oracle::lists::{Lister, Sizes, Style, LOOKING};
use oracle::patterns::handed_on;
use oracle::record::Call;
use oracle::row::{Entry, Row};
use oracle::rust::{Reply, Rust, Subject};
use oracle::state::{Finger, Head, State, EFFECT, LINES};
use std::panic::{catch_unwind, AssertUnwindSafe};

/// lib.rs at fan 4 whose calls go through a wrong step, with what that step remembers.
#[derive(Clone)]
struct Mutant {
    rust: Rust<4>,
    wrong: Wrong,
    splits: u32,
    first_lookup: Option<Reply>,
}

type Wrong = fn(&mut Mutant, Call, Source) -> Reply;

impl Subject for Mutant {
    fn call(&mut self, call: Call, from: Source) -> Reply {
        (self.wrong)(self, call, from)
    }

    fn head(&self) -> Head {
        self.rust.head()
    }

    fn state(&self) -> State {
        self.rust.state()
    }

    fn entries(&self) -> Vec<Entry> {
        self.rust.entries()
    }

    fn copy(&self) -> Box<dyn Subject> {
        Box::new(self.clone())
    }
}

fn right(tree: &mut Mutant, call: Call, from: Source) -> Reply {
    tree.rust.call(call, from)
}

fn swapped_split_flag(tree: &mut Mutant, call: Call, from: Source) -> Reply {
    match call {
        Call::Split { id, lengths, before } => tree.rust.call(Call::Split { id, lengths, before: !before }, from),
        _ => right(tree, call, from),
    }
}

/// Puts the finger back as it was before a change, where `stale` says so of it and the head after.
fn keeps(tree: &mut Mutant, call: Call, from: Source, stale: impl Fn(Finger, &Head) -> bool) -> Reply {
    let old = tree.head().finger;
    let reply = right(tree, call, from);
    let change = !matches!(call, Call::Reset { .. } | Call::Lookup { .. } | Call::Select { .. });
    if let Some(finger) = old.filter(|&finger| change && stale(finger, &tree.head())) {
        tree.rust.tree.rust.put_finger(Some(finger));
    }
    reply
}

fn finger_kept(tree: &mut Mutant, call: Call, from: Source) -> Reply {
    keeps(tree, call, from, |_, _| true)
}

fn finger_kept_although_its_slot_left(tree: &mut Mutant, call: Call, from: Source) -> Reply {
    let leaves = tree.head().leaf_count;
    keeps(tree, call, from, |finger, head| head.leaf_count > leaves && finger.slot >= 2)
}

fn effect_position_plus_offset(tree: &mut Mutant, call: Call, from: Source) -> Reply {
    let mut reply = right(tree, call, from);
    if matches!(call, Call::Lookup { .. }) {
        reply.fields[2] += reply.fields[1];
    }
    reply
}

fn prepare_position_plus_offset(tree: &mut Mutant, call: Call, from: Source) -> Reply {
    let mut reply = right(tree, call, from);
    if matches!(call, Call::Lookup { .. }) {
        reply.fields[3] += reply.fields[1];
    }
    reply
}

fn zero_length_entry_taken(tree: &mut Mutant, call: Call, from: Source) -> Reply {
    let mut reply = right(tree, call, from);
    if let Call::Lookup { view, .. } | Call::Select { view, .. } = call {
        let entries = tree.entries();
        let found = entries.iter().position(|entry| entry.id == reply.fields[0]).unwrap_or(0);
        if found > 0 && reply.fields[1] == 0 && entries[found - 1].lengths[view] == 0 {
            reply.fields[0] = entries[found - 1].id;
        }
    }
    reply
}

fn guesses_after_the_first_lookup(tree: &mut Mutant, call: Call, from: Source) -> Reply {
    let reply = right(tree, call, from);
    match call {
        Call::Lookup { .. } => *tree.first_lookup.get_or_insert(reply),
        _ => reply,
    }
}

/// An insert is answered as it should be, from a copy.
fn stores_nothing(tree: &mut Mutant, call: Call, from: Source) -> Reply {
    match call {
        Call::Insert { .. } => right(&mut tree.clone(), call, from),
        _ => right(tree, call, from),
    }
}

fn position_0_from_every_insert(tree: &mut Mutant, call: Call, from: Source) -> Reply {
    let mut reply = right(tree, call, from);
    if matches!(call, Call::Insert { .. }) {
        reply.fields[1] = 0;
    }
    reply
}

fn count_forgets_splits(tree: &mut Mutant, call: Call, from: Source) -> Reply {
    let mut reply = right(tree, call, from);
    match call {
        Call::Split { .. } => tree.splits += 1,
        Call::Count => reply.fields[0] -= tree.splits,
        _ => {}
    }
    reply
}

fn none_from_every_next(tree: &mut Mutant, call: Call, from: Source) -> Reply {
    let mut reply = right(tree, call, from);
    if matches!(call, Call::Next { .. }) {
        (reply.fields, reply.got) = ([u32::MAX, 0, 0, 0], [None; 2]);
    }
    reply
}

fn set_forgets_the_effect_length(tree: &mut Mutant, call: Call, from: Source) -> Reply {
    let Call::Set { id, lengths: [prepare, _, lines] } = call else { return right(tree, call, from) };
    let [_, own, _] = own_lengths(tree, id);
    tree.rust.call(Call::Set { id, lengths: [prepare, own, lines] }, from)
}

fn own_lengths(tree: &Mutant, id: u32) -> [u32; 3] {
    tree.rust.tree.lengths(tree.rust.tree.cursor(id))
}

fn set_forgets_the_line_ends(tree: &mut Mutant, call: Call, from: Source) -> Reply {
    match call {
        Call::Set { id, .. } => tree.rust.call(call.with_lines(own_lengths(tree, id)[LINES]), from),
        _ => right(tree, call, from),
    }
}

/// A split that moves line ends alone would be hollow, and refused.
fn split_moves_no_line_ends(tree: &mut Mutant, call: Call, from: Source) -> Reply {
    match call {
        Call::Split { lengths: [prepare, effect, _], .. } if [prepare, effect] != [0; 2] => {
            tree.rust.call(call.with_lines(0), from)
        }
        _ => right(tree, call, from),
    }
}

fn lines_ranked_in_the_effect_view(tree: &mut Mutant, call: Call, from: Source) -> Reply {
    match call {
        Call::Rank { view: LINES, id } => tree.rust.call(Call::Rank { view: EFFECT, id }, from),
        _ => right(tree, call, from),
    }
}

fn lines_looked_up_in_the_effect_view(tree: &mut Mutant, call: Call, from: Source) -> Reply {
    match call {
        Call::Lookup { view: LINES, index } => tree.rust.call(Call::Lookup { view: EFFECT, index }, from),
        _ => right(tree, call, from),
    }
}

fn no_line_ends_from_lengths(tree: &mut Mutant, call: Call, from: Source) -> Reply {
    let mut reply = right(tree, call, from);
    if matches!(call, Call::Lengths { .. }) {
        reply.fields[2] = 0;
    }
    reply
}

fn hands_on_the_cursor_held_before(tree: &mut Mutant, call: Call, from: Source) -> Reply {
    match from {
        Source::Held(place) => tree.rust.call(call, Source::Held(place.saturating_sub(1))),
        Source::Id => right(tree, call, from),
    }
}

fn selects_in_another_view(tree: &mut Mutant, call: Call, from: Source) -> Reply {
    match call {
        Call::Select { view, index } => tree.rust.call(Call::Select { view: (view + 1) % 3, index }, from),
        _ => right(tree, call, from),
    }
}

/// Document 01's "Mistakes near to hand" and its clause c, as far as they are not about refusals:
/// what is refused is the row's to say here, and is not played on the tree. Then a wrong cursor, `char_index_to_entry`, and line ends.
const MUTANTS: [(&str, Wrong); 19] = [
    ("swapped split flag", swapped_split_flag),
    ("finger kept after every change", finger_kept),
    ("finger kept although its slot left with the upper half", finger_kept_although_its_slot_left),
    ("effect position + offset", effect_position_plus_offset),
    ("prepare position + offset", prepare_position_plus_offset),
    ("zero-length entry taken at its own position", zero_length_entry_taken),
    ("a lookup that guesses after the first", guesses_after_the_first_lookup),
    ("an insert that stores nothing", stores_nothing),
    ("position 0 from every insert", position_0_from_every_insert),
    ("a count that forgets splits", count_forgets_splits),
    ("none from every next", none_from_every_next),
    ("set forgets the effect length", set_forgets_the_effect_length),
    ("a call is handed the cursor held before", hands_on_the_cursor_held_before),
    ("char_index_to_entry in another view", selects_in_another_view),
    ("set forgets the line ends", set_forgets_the_line_ends),
    ("a split moves no line ends", split_moves_no_line_ends),
    ("lines ranked in the effect view", lines_ranked_in_the_effect_view),
    ("lines looked up in the effect view", lines_looked_up_in_the_effect_view),
    ("no line ends from lengths", no_line_ends_from_lengths),
];

/// Plays a list of up to 3,000 calls; an error or a panic of lib.rs is a catch.
fn play(wrong: Wrong, check_every: u64) -> Result<u64, Parted> {
    let style = Style { weights: LOOKING, sizes: Sizes::Small, close: 80, miss: 1 };
    let mutant = Mutant { rust: Rust::make(2_000, [2, 3, 1]), wrong, splits: 0, first_lookup: None };
    let mut driver = Driver::beside(mutant, Row::make(2_000, [2, 3, 1]), check_every);
    let mut lister = Lister::new(7, style);
    let run = AssertUnwindSafe(|| driver.play_drawn(&mut lister, 3_000).map(|()| driver.coverage.calls()));
    catch_unwind(run).unwrap_or(Err("lib.rs panicked".into()))
}

#[test]
fn every_mutant_is_caught() {
    for (name, wrong) in MUTANTS {
        for (how, check_every) in [("a check after every call", 1), ("answers alone", 0)] {
            let caught = play(wrong, check_every).expect_err(name);
            println!("{name}, {how}: {caught}");
        }
    }
    assert_eq!(play(right, 1), Ok(3_000), "what is not wrong passes");
}

/// A run is not whole if one kind of call is never handed the cursor of one call.
#[test]
fn what_is_never_handed_on_is_noticed() {
    let whole = handed_on(Setup { make: rust, fan: 4, check_every: 0 });
    assert!(whole.whole());
    for (giver, kind) in GIVERS.into_iter().flat_map(|giver| HANDED.map(|kind| (giver, kind))) {
        let mut met = whole.clone();
        met.handed.get_mut(&giver).expect("its cursors were handed on")[kind as usize] = 0;
        assert!(!met.whole(), "{giver:?}, kind {kind}");
    }
}
