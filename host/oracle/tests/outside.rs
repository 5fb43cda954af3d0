//! What lib.rs does outside domain D, seen by running it: each line of docs/DIFFERENCES.md has its
//! test here. Debug and release are told apart by `CHECKED`, so both builds must be run.

use oracle::audit::{audit, Verdict};
use oracle::row::Row;
use oracle::rust::{pair, Rust, Subject};
use oracle::tree::{Cursor, PrepareEffectTree, View};
use std::panic::{catch_unwind, AssertUnwindSafe};

#[path = "outside/add.rs"]
mod add;
#[path = "outside/cursor.rs"]
mod cursor;
#[path = "outside/fan.rs"]
mod fan;
#[path = "outside/length.rs"]
mod length;
#[path = "outside/lookup.rs"]
mod lookup;

/// Whether this build checks overflow and debug assertions.
const CHECKED: bool = cfg!(debug_assertions);

const OVERFLOW: &str = "attempt to add with overflow";
const PAST_THE_END: &str = "index is past the end";

type Tree = PrepareEffectTree<4>;

/// What a call answers, or the text of its panic.
fn outcome<T>(call: impl FnOnce() -> T) -> Result<T, String> {
    catch_unwind(AssertUnwindSafe(call)).map_err(|panic| {
        let text = panic.downcast_ref::<String>().cloned();
        text.or_else(|| panic.downcast_ref::<&str>().map(|text| text.to_string())).unwrap_or_default()
    })
}

/// The text of an index past an array or list.
fn out_of_bounds<T>(len: usize, index: usize) -> Result<T, String> {
    Err(format!("index out of bounds: the len is {len} but the index is {index}"))
}

/// What overflows panics where `CHECKED`, and else gives the answer that has wrapped.
fn wrapped<T>(answer: T) -> Result<T, String> {
    if CHECKED {
        Err(OVERFLOW.into())
    } else {
        Ok(answer)
    }
}

/// Ids 0 to 4 with lengths (1, 1) to (5, 5), inserted at the end: leaf 0 holds ids 0 and 1, leaf 1 the others.
fn five() -> Tree {
    let mut tree = Tree::new(pair([1, 1]));
    for length in 2..=5 {
        tree.insert(None, pair([length, length]));
    }
    tree
}

/// The entries met by walking: id, prepare, effect.
fn walked(tree: &Tree) -> Vec<[u32; 3]> {
    let mut entries = Vec::new();
    let mut at = Some(tree.first());
    while let Some(cursor) = at {
        let lengths = tree.lengths(cursor);
        entries.push([tree.id(cursor), lengths.prepare, lengths.effect]);
        at = tree.next(cursor);
    }
    entries
}

fn verdict(tree: &Tree) -> Verdict {
    audit(&tree.state(1_000, &[]))
}
