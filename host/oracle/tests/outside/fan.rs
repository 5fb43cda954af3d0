//! Fans other than 4 to 32, ids past the count, and more entries than any limit.

use super::*;
use oracle::driver::Driver;
use oracle::lists::{Lister, Sizes, Style, EVEN};
use std::cmp::Ordering;

#[test]
fn fan_0_panics_when_made() {
    assert_eq!(outcome(|| PrepareEffectTree::<0>::new(pair([1, 1])).len()), out_of_bounds(0, 0));
}

#[test]
fn fan_1_panics_at_the_second_entry() {
    let mut tree = PrepareEffectTree::<1>::new(pair([1, 1]));
    assert_eq!(tree.len(), 1);
    assert_eq!(outcome(|| tree.insert(None, pair([1, 1]))), out_of_bounds(1, 1));
}

/// Plays random lists at a fan that document 01 refuses.
fn like_the_row<const N: usize>(limit: u32) {
    let style = Style { weights: EVEN, sizes: Sizes::Small, close: 50, miss: 2 };
    for seed in 0..10 {
        let mut lister = Lister::new(seed, style);
        let mut driver = Driver::beside(Rust::<N>::make(limit, [3; 3]), Row::make(limit, [3; 3]), 0);
        driver.play_drawn(&mut lister, 2_000).unwrap();
        assert_eq!(driver.subject.entries(), driver.row.entries);
        assert_eq!(audit(&driver.subject.state()), Verdict::Refused(1));
    }
    println!("fan {N}: 20,000 calls answered like the row");
}

#[test]
fn fans_2_3_33_and_64_answer_like_the_row_while_small() {
    like_the_row::<2>(18);
    like_the_row::<3>(34);
    like_the_row::<33>(2_000);
    like_the_row::<64>(2_000);
}

/// Inserts at the end until the tree has so many levels; compares its first and its last entry.
fn first_with_last<const N: usize>(levels: u32) -> (usize, Result<Ordering, String>) {
    let mut tree = PrepareEffectTree::<N>::new(pair([1, 1]));
    while tree.head(1).levels < levels {
        tree.insert(None, pair([1, 1]));
    }
    let last = tree.len() as u32 - 1;
    (tree.len(), outcome(|| tree.cmp(tree.cursor(0), tree.cursor(last))))
}

/// A path has sixteen steps: at seventeen levels `cmp` panics.
#[test]
fn fans_2_and_3_are_soon_too_deep_to_compare() {
    assert_eq!(first_with_last::<2>(16), (18, Ok(Ordering::Less)));
    assert_eq!(first_with_last::<2>(17), (19, out_of_bounds(16, 16)));
    assert_eq!(first_with_last::<3>(16), (34, Ok(Ordering::Less)));
    assert_eq!(first_with_last::<3>(17), (36, out_of_bounds(16, 16)));
}

/// A step of a path is one byte: child 256 compares as child 0.
#[test]
fn fan_257_compares_wrongly() {
    let mut tree = PrepareEffectTree::<257>::new(pair([1, 1]));
    while tree.head(1).leaf_count < 257 {
        tree.insert(None, pair([1, 1]));
    }
    let last = tree.cursor(tree.len() as u32 - 1);
    assert_eq!((tree.len(), last.fields()[0]), (32_898, 256));
    assert_eq!(tree.cmp(tree.cursor(0), last), Ordering::Equal);
    assert_eq!(tree.cmp(tree.cursor(300), last), Ordering::Greater);
}

#[test]
fn an_id_past_the_count_panics() {
    let tree = five();
    assert_eq!(outcome(|| tree.cursor(5)), out_of_bounds(5, 5));
    assert_eq!(outcome(|| tree.cursor(u32::MAX)), out_of_bounds(5, 4_294_967_295));
}

#[test]
fn entry_65537_is_taken() {
    let mut tree = Tree::new(pair([0, 0]));
    for _ in 1..65_536 {
        tree.insert(None, pair([0, 0]));
    }
    assert_eq!(tree.insert(None, pair([0, 0])), (65_536, 0));
    assert_eq!(tree.len(), 65_537);
}

#[test]
fn fan_4_without_a_limit_gets_too_deep_to_compare() {
    assert_eq!(first_with_last::<4>(16), (196_607, Ok(Ordering::Less)));
    assert_eq!(first_with_last::<4>(17), (393_215, out_of_bounds(16, 16)));
}
