//! Audit's verdict in words, and the oracle's on the same words; likewise of a repair.

use crate::words::Words;
use beside::words::head_of;
use oracle::audit::{audit, Verdict};
use oracle::repair::{repair, Repaired};
use oracle::state::State;
use smelvock::raw::word;
use smelvock::Refusal;

/// What the oracle's audit, written in Rust from the papers, says of a tree's words. It takes any word but 0 for a finger or seats,
/// where the port refuses all but 1 by 10.
pub fn verdict(words: &Words) -> Verdict {
    if words.head[word::PRESENT] > 1 || words.head[word::SEATED] > 1 {
        return Verdict::Refused(10);
    }
    audit(&state(words))
}

fn state(words: &Words) -> State {
    let Words { head, leaves, inners, homes } = words.clone();
    State { head: head_of(head), leaves, inners, homes }
}

/// What differs between a repair of those words and the oracle's: its answer, or the words that it leaves. Of the finger it trusts nothing,
/// not even the word that says whether there is one.
pub fn repair_difference(before: &Words, after: &Words, answer: Result<u32, Refusal>) -> Option<String> {
    let refused = |number| (Err(Refusal { number }), before.clone());
    let (wanted, left) = match repair(&state(before)) {
        _ if before.head[word::SEATED] > 1 => refused(10),
        Repaired::Refused(number) => refused(number),
        Repaired::Right(State { leaves, inners, homes, .. }, words) => {
            let mut head = before.head;
            head[word::PRESENT..word::STAMP].fill(0);
            (Ok(words), Words { head, leaves, inners, homes })
        }
    };
    let words = if *after == left { "the same words" } else { "other words" };
    ((answer, after) != (wanted, &left)).then(|| format!("the oracle's repair answers {wanted:?} and leaves {words}"))
}

/// The port's verdict, with the oracle's reason where it isn't sound.
pub fn said(answer: Result<bool, Refusal>, oracle: Verdict) -> String {
    match (answer, oracle) {
        (Ok(true), _) => "sound".to_string(),
        (Ok(false), Verdict::No(phrase)) => format!("not sound: what fails is \"{phrase}\""),
        (Ok(false), _) => "not sound".to_string(),
        (Err(refusal), _) => refusal.to_string(),
    }
}

/// What differs between the two.
pub fn difference(answer: Result<bool, Refusal>, oracle: Verdict) -> Option<String> {
    let same = match oracle {
        Verdict::Yes => answer == Ok(true),
        Verdict::No(_) => answer == Ok(false),
        Verdict::Refused(number) => answer == Err(Refusal { number: number.into() }),
    };
    (!same).then(|| format!("the oracle's audit says {oracle:?}"))
}
