//! Many sheets on many threads. A tree is one sheet's and one thread's: nothing is shared, and nobody waits.

use crate::tree::Tree;
use crate::{merge, Edit, Merged};
use smelvock::Refusal;
use std::sync::atomic::{AtomicUsize, Ordering};
use std::thread;

/// The first version of a sheet, and its edits.
pub type History = (String, Vec<Edit>);

/// Merges so many sheets, whose histories are the given ones in turn, each on a tree of its own. Each thread takes the next sheet that
/// none has taken yet.
pub fn merged<T: Tree>(histories: &[History], sheets: usize, threads: usize) -> Vec<Result<Merged, Refusal>> {
    let next = AtomicUsize::new(0);
    let work = || {
        let taken = std::iter::repeat_with(|| next.fetch_add(1, Ordering::Relaxed)).take_while(|&sheet| sheet < sheets);
        taken
            .map(|sheet| (sheet, &histories[sheet % histories.len()]))
            .map(|(sheet, (first, edits))| (sheet, merge::<T>(first, edits)))
            .collect::<Vec<_>>()
    };
    let mut done: Vec<_> = thread::scope(|scope| {
        let running: Vec<_> = (0..threads).map(|_| scope.spawn(work)).collect();
        running.into_iter().flat_map(|thread| thread.join().expect("the merge ends")).collect()
    });
    done.sort_by_key(|&(sheet, _)| sheet);
    done.into_iter().map(|(_, merged)| merged).collect()
}
