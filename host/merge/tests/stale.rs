//! What a stale memory of the last lookup does to a sheet: lib.rs's tree with one mistake books a laboratory twice.

use histories::history;
use histories::plain::Plain;
use merge::example::{edits, SHEET};
use merge::merge;
use merge::tree::Tree;
use oracle::random::Random;
use oracle::tree::PrepareEffectTree;
use smelvock::{EntryId, Lengths, Refusal, LIMIT};
use std::{panic, thread};

/// lib.rs's tree without a line of `changing`: a change in an earlier slot of its leaf leaves the finger where it was. After an
/// insertion there it stands one entry too early.
struct Stale<const N: usize>(PrepareEffectTree<N>);

impl<const N: usize> Stale<N> {
    fn change<R>(&mut self, call: impl FnOnce(&mut PrepareEffectTree<N>) -> R) -> R {
        let finger = |tree: &PrepareEffectTree<N>| tree.head(LIMIT).finger;
        let before = finger(&self.0);
        let answer = call(&mut self.0);
        if finger(&self.0).is_some() {
            self.0.put_finger(before);
        }
        answer
    }
}

impl<const N: usize> Tree for Stale<N> {
    fn make(lengths: Lengths) -> Result<Self, Refusal> {
        Tree::make(lengths).map(Stale)
    }
    fn find(&mut self, prepare: u32) -> Result<(EntryId, u32, u32), Refusal> {
        self.0.find(prepare)
    }
    fn cut(&mut self, id: EntryId, lengths: Lengths) -> Result<EntryId, Refusal> {
        self.change(|tree| tree.cut(id, lengths))
    }
    fn put(&mut self, before: Option<EntryId>, lengths: Lengths) -> Result<(EntryId, u32), Refusal> {
        self.change(|tree| tree.put(before, lengths))
    }
    fn resize(&mut self, id: EntryId, lengths: Lengths) -> Result<(), Refusal> {
        self.change(|tree| tree.resize(id, lengths))
    }
    fn front(&self) -> Result<EntryId, Refusal> {
        self.0.front()
    }
    fn behind(&self, id: EntryId) -> Result<Option<EntryId>, Refusal> {
        self.0.behind(id)
    }
}

/// README's history up to Biology's booking of Monday.
#[test]
fn a_booking_lands_in_the_next_row() {
    let edits = &edits()[..4];
    let [right, wrong] = [merge::<PrepareEffectTree<8>>(SHEET, edits), merge::<Stale<8>>(SHEET, edits)];
    assert_eq!(right.unwrap().sheet, "Laboratory\nMon lab 7B\nTue lab 8C\nWed lab 9A\n");
    assert_eq!(wrong.unwrap().sheet, "Laboratory\nMon lab\nTue lab 7B 8C\nWed lab 9A\n");
    assert!(include_str!("../../../README.md").contains("`Tue lab 7B 8C`"));
}

/// The merge on the wrong tree goes wrong often: another sheet, or an end where a sum or a position leads nowhere.
#[test]
fn random_histories_find_it_out() {
    let (here, usual) = (thread::current().id(), panic::take_hook());
    panic::set_hook(Box::new(move |told| {
        if thread::current().id() != here {
            usual(told)
        }
    }));
    let [mut right, mut wrong, mut stopped] = [0; 3];
    for seed in 0..1_000 {
        let (sheet, edits) = history(&mut Random::new(seed), 2, 12);
        let wanted = Plain::of(&sheet, &edits).merged();
        match panic::catch_unwind(|| merge::<Stale<8>>(&sheet, &edits).map(|merged| merged.sheet == wanted)) {
            Ok(Ok(true)) => right += 1,
            Ok(Ok(false)) => wrong += 1,
            _ => stopped += 1,
        }
    }
    _ = panic::take_hook();
    println!("a stale finger: {right} sheets right, {wrong} wrong, {stopped} merges stopped");
    assert!(wrong > 100 && stopped > 0, "{wrong} wrong, {stopped} stopped");
}
