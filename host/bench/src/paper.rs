//! The sheet on paper: `print` beside Rust's `write!` of lib.rs's answers, per line. Both write into a buffer that stays.

use crate::timing::Table;
use beside::port::Port;
use oracle::calls::Calls;
use oracle::sheet::{of_tree, PAGE_BYTES, PAGE_LINES};
use oracle::tree::PrepareEffectTree;
use std::hint::black_box;
use std::io::Write;

pub fn run<const N: usize>(table: &mut Table, rust: &PrepareEffectTree<N>, port: &Port<N>) {
    let lines = rust.len();
    let bytes = lines.div_ceil(PAGE_LINES) * PAGE_BYTES;
    let (mut written, mut asked, mut printed) = (Vec::with_capacity(bytes), Vec::with_capacity(bytes), vec![0; bytes]);
    let mut print = || {
        black_box(port.0.print(black_box(&mut printed))).expect("the buffer is as long as the pages");
        lines
    };
    table.kind("print, per line", || write_sums(black_box(rust), &mut written), &mut print);
    table.kind("print, per line; ranks asked", || write_ranks(black_box(rust), &mut asked), &mut print);
    let wanted = of_tree(rust).into_bytes();
    assert!(written == wanted && asked == wanted && printed == wanted, "what was timed is the sheet");
}

/// The positions are running sums: lib.rs is asked for `first`, `next`, `id` and `lengths`.
fn write_sums<T: Calls>(tree: &T, page: &mut Vec<u8>) -> usize {
    let mut at = [0, 0];
    write_sheet(tree, page, |_, [prepare, effect]| {
        let here = at;
        at = [at[0] + prepare, at[1] + effect];
        here
    })
}

/// lib.rs is asked for the positions too, by `entry_to_char_index`.
fn write_ranks<T: Calls>(tree: &T, page: &mut Vec<u8>) -> usize {
    write_sheet(tree, page, |cursor, _| [0, 1].map(|view| tree.entry_to_char_index(view, cursor)))
}

fn write_sheet<T: Calls>(
    tree: &T,
    page: &mut Vec<u8>,
    mut positions: impl FnMut(T::Cursor, [u32; 2]) -> [u32; 2],
) -> usize {
    page.clear();
    let mut lines = 0usize;
    let mut at = Some(tree.first());
    while let Some(cursor) = at {
        let (id, [prepare, effect, _]) = (tree.id(cursor), tree.lengths(cursor));
        let [prepare_at, effect_at] = positions(cursor, [prepare, effect]);
        writeln!(page, "{id:>10} {prepare_at:>10} {effect_at:>10} {prepare:>10} {effect:>10}").expect("a Vec takes it");
        lines += 1;
        at = tree.next(cursor);
    }
    for _ in lines..lines.next_multiple_of(PAGE_LINES) {
        writeln!(page, "{:54}", "").expect("a Vec takes it");
    }
    lines
}
