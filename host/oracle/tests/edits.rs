//! The oracle's sets and refusals against cases written out by hand from document 02 (CR 5).

use oracle::edits::{check, difference, editrun, file, Parents, Rests, MOST, NONE};

/// 0; 1 and 2 on it, 2 twice; 3 on both; 4 on 1 by its second parent; 5 on nothing; 6 on 4 and 5.
const EDITS: [Parents; 7] = [[NONE, NONE], [0, NONE], [0, 0], [1, 2], [NONE, 1], [NONE, NONE], [5, 4]];

#[test]
fn what_each_edit_rests_on() {
    let wanted: [&[u32]; 7] = [&[0], &[0, 1], &[0, 2], &[0, 1, 2, 3], &[0, 1, 4], &[5], &[0, 1, 4, 5, 6]];
    for (set, wanted) in Rests::of(&EDITS).0.iter().zip(wanted) {
        assert!(set.iter().eq(wanted), "{set:?}, wanted {wanted:?}");
    }
}

#[test]
fn lists_written_out() {
    let file = file(&EDITS);
    let list = |first, second| difference(&file, MOST, first, second);
    assert_eq!(list(3, 4), Ok(vec![2, 3]));
    assert_eq!(list(4, 3), Ok(vec![4]));
    assert_eq!(list(6, 3), Ok(vec![4, 5, 6]));
    assert_eq!(list(3, 6), Ok(vec![2, 3]));
    assert_eq!(list(0, 5), Ok(vec![0]));
    assert_eq!(list(2, 3), Ok(vec![]));
    assert_eq!(list(6, 6), Ok(vec![]));
    assert_eq!(editrun(&file, 6, 3), Ok("4\n5\n6\n".into()));
    assert_eq!(editrun(&file, 6, 7), Err("editrun: refused by 4\n".into()));
}

/// A long chain: the sets are joined as often as it takes.
#[test]
fn a_chain_of_512() {
    let chain: Vec<Parents> = (0..512u32).map(|edit| [NONE, edit.wrapping_sub(1)]).collect();
    assert_eq!(difference(&file(&chain), MOST, 511, 255), Ok((256..512).collect()));
    assert_eq!(difference(&file(&chain), MOST, 255, 511), Ok(vec![]));
}

#[test]
fn refusals_in_order() {
    let good = file(&EDITS);
    let with = |place: usize, byte: u8| {
        let mut changed = good.clone();
        changed[place] = byte;
        changed
    };
    assert_eq!(check(&good).as_deref(), Ok(&EDITS[..]));
    assert_eq!(check(&[]), Ok(vec![]));
    assert_eq!(check(&good[..good.len() - 1]), Err(11));
    assert_eq!(check(&with(16 * 3 + 15, 1)), Err(10));
    // an edit's own number, and one that is larger; 10 in the same record is first, 10 in a later one isn't
    assert_eq!(check(&with(16 * 3, 3)), Err(15));
    assert_eq!(check(&with(16 * 3 + 6, 1)), Err(15));
    let mut both = with(16 * 3, 3);
    both[16 * 3 + 8] = 1;
    assert_eq!(check(&both), Err(10));
    both[16 * 3 + 8] = 0;
    both[16 * 4 + 8] = 1;
    assert_eq!(check(&both), Err(15));
    let long = vec![1; 16 * (MOST + 1)];
    assert_eq!(check(&long), Err(16));
    assert_eq!(check(&[&long[..], &[1]].concat()), Err(11));

    assert_eq!(difference(&long[1..], 0, 9, 9), Err(11));
    assert_eq!(difference(&long, MOST - 1, 9, 9), Err(12));
    assert_eq!(difference(&long, MOST, 9, 9), Err(16));
    assert_eq!(difference(&with(16 * 3, 3), MOST, 9, 9), Err(15));
    assert_eq!(difference(&good, MOST, 7, 0), Err(4));
    assert_eq!(difference(&good, MOST, 0, 7), Err(4));
    assert_eq!(difference(&[], MOST, 0, 0), Err(4));
}
