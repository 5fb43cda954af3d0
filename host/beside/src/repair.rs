//! Repair on words that may be any, with guards around them, beside oracle's, which is written from the paper.

pub mod kinds;
pub mod runs;
pub mod sites;
pub mod trees;

use crate::exports::{Answer, Area, Export, Given, Tree};
use crate::words::head_of;
use oracle::audit::{audit, Verdict};
use oracle::driver::Parted;
use oracle::repair::{differing, repair, Repaired};
use oracle::state::State;
use smelvock::raw::word::{PRESENT, SEATED, STAMP};
use smelvock::stored::Stored;

/// What puts trees right: the export, `host/smelvock`'s own, or what stands in for them in a test that must fail.
pub type Repairs = fn(&mut Tree) -> Answer;

pub fn export(tree: &mut Tree) -> Answer {
    Export::Repair.play(tree, &Given::default())
}

/// By `host/smelvock`, on the words as they come out of a file.
pub fn stored(tree: &mut Tree) -> Answer {
    let [head, leaves, inners, homes] = tree.words();
    let words = Stored { head: head.try_into().expect("thirty-six words"), leaves, inners, homes };
    let mut file = Stored::from_bytes(&words.to_bytes()).expect("it was just stored");
    let answer = match file.repair() {
        Ok(words) => Answer { number: 0, values: vec![words] },
        Err(refusal) => Answer { number: refusal.number, values: vec![0] },
    };
    tree.head = Area::new(&file.head);
    [tree.leaves, tree.inners, tree.homes] = [file.leaves, file.inners, file.homes].map(|words| Area::new(&words));
    answer
}

/// How often what was answered.
#[derive(Clone, Copy, PartialEq, Eq, Default, Debug)]
pub struct Met {
    /// Put right without a word that differs, and with some.
    pub none: u64,
    pub some: u64,
    /// By 1, 2, 10 and 21.
    pub refused: [u64; 4],
    /// The words that differed.
    pub words: u64,
}

impl Met {
    fn note(&mut self, answer: &Answer) {
        match (answer.number, answer.values[0]) {
            (0, 0) => self.none += 1,
            (0, _) => self.some += 1,
            (number, _) => {
                self.refused[[1, 2, 10, 21].iter().position(|&known| known == number).expect("a cause")] += 1
            }
        }
        self.words += answer.values[0] as u64;
    }

    pub fn trees(&self) -> u64 {
        self.none + self.some + self.refused.iter().sum::<u64>()
    }

    pub fn right(&self) -> u64 {
        self.none + self.some
    }

    pub fn unsound(&self) -> u64 {
        self.refused[3]
    }
}

pub fn state_of(tree: &Tree) -> State {
    let [head, leaves, inners, homes] = tree.words();
    State { head: head_of(head.try_into().expect("thirty-six words")), leaves, inners, homes }
}

/// The finger's ten words in the head, its flag the first.
pub const FINGER: std::ops::Range<usize> = PRESENT..STAMP;

/// A flag of the seats that is neither 0 nor 1: refused by 10 before all else. The finger's may be any word.
pub fn flagged(tree: &Tree) -> bool {
    tree.word(SEATED) > 1
}

/// What repair must answer, and the tree that it must leave.
pub fn wanted(tree: &Tree) -> (Answer, Tree) {
    let refused = |number| (Answer { number, values: vec![0] }, tree.clone());
    if flagged(tree) {
        return refused(10);
    }
    match repair(&state_of(tree)) {
        Repaired::Refused(number) => refused(number),
        Repaired::Right(State { leaves, inners, homes, .. }, words) => {
            let [leaves, inners, homes] = [leaves, inners, homes].map(|words| Area::new(&words));
            let mut right = Tree { leaves, inners, homes, ..tree.clone() };
            right.head.words_mut()[FINGER].fill(0);
            (Answer { number: 0, values: vec![words] }, right)
        }
    }
}

/// Repairs the tree and compares answer and every word with what is wanted. What is put right is sound by both audits, its count is
/// that of a plain comparison, and there is nothing left to repair; where words differed, the tree wasn't sound.
pub fn compare(repairs: Repairs, tree: &Tree, met: &mut Met) -> Result<Answer, Parted> {
    let (answer, right) = wanted(tree);
    let mut after = tree.clone();
    let said = repairs(&mut after);
    let parted = |what: &str| Err(format!("{what}: {said:?}, wanted {answer:?}, head {:?}", tree.head.words()));
    if said != answer {
        return parted("answer");
    }
    if after != right {
        return parted("words");
    }
    met.note(&said);
    if said.number != 0 {
        return Ok(said);
    }
    let [before, now] = [tree, &after].map(state_of);
    let sound = |tree: &Tree| Export::Audit.play(&mut tree.clone(), &Given::default()).values == [1];
    if !sound(&after) || audit(&now) != Verdict::Yes {
        return parted("audit");
    }
    if said.values != [differing(&before, &now)] || said.values[0] > 0 && sound(tree) {
        return parted("count");
    }
    let mut again = after.clone();
    if repairs(&mut again) != (Answer { number: 0, values: vec![0] }) || again != after {
        return parted("repaired twice");
    }
    Ok(said)
}
