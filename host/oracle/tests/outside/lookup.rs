//! Lookups at or past a view's total.

use super::*;
use oracle::driver::Driver;
use oracle::record::Record;
use oracle::state::NONE;

/// `five` has 15 positions in either view.
#[test]
fn a_position_at_or_past_the_total_panics() {
    for view in [View::Prepare, View::Effect] {
        for index in [15, 16, u32::MAX] {
            let mut tree = five();
            assert_eq!(outcome(|| tree.locate(view, index)), Err(PAST_THE_END.into()));
            assert_eq!(outcome(|| tree.char_index_to_entry(view, index)), Err(PAST_THE_END.into()));
            assert_eq!(tree.head(5).finger, None);
        }
    }
}

#[test]
fn position_0_among_lengths_of_0_panics() {
    for view in [View::Prepare, View::Effect] {
        let mut tree = Tree::new(pair([0, 0]));
        assert_eq!(outcome(|| tree.locate(view, 0)), Err(PAST_THE_END.into()));
    }
}

/// The finger stands at slot 1 of leaf 1; the lookup that panics has moved it past that leaf's last slot.
#[test]
fn the_finger_moves_before_the_panic() {
    let mut tree = five();
    tree.locate(View::Prepare, 6);
    let before = tree.head(5).finger.expect("a lookup sets the finger");
    assert_eq!((before.leaf, before.slot, before.within), (1, 1, 3));
    assert_eq!(outcome(|| tree.locate(View::Prepare, 15)), Err(PAST_THE_END.into()));
    let after = tree.head(5).finger.expect("the finger is still there");
    assert_eq!((after.leaf, after.slot, after.within, after.effect_within), (1, 3, 12, 12));
    assert_eq!(verdict(&tree), Verdict::No("finger"));
}

/// The finger of another view, or one that starts past the index, is not moved.
#[test]
fn the_finger_of_another_view_stays() {
    let mut tree = five();
    tree.locate(View::Effect, 6);
    let before = tree.head(5).finger;
    assert_eq!(outcome(|| tree.locate(View::Prepare, 15)), Err(PAST_THE_END.into()));
    assert_eq!(tree.head(5).finger, before);
}

/// From each finger that was moved so, each change and then every lookup: the answers are the row's
/// again. What is left of the panic is the finger itself.
#[test]
fn no_later_answer_shows_the_moved_finger() {
    let mut runs = 0;
    for looked in 0..15 {
        for (kind, flag) in [(2, 0), (4, 0), (4, 1), (6, 0), (12, 0)] {
            for id in [0, 1, 2, 3, 4, NONE] {
                let mut driver = Driver::<Rust<4>>::make(10, [1; 3], 0);
                driver.play_all(&[2, 3, 4, 5].map(|length| Record::new(3, 0, NONE, length, length))).unwrap();
                driver.play(Record::new(7, 0, looked, 0, 0)).unwrap();
                assert!(outcome(|| driver.subject.tree.rust.locate(View::Prepare, 15)).is_err());
                let change = if kind == 12 { Record::new(12, 0, 0, 0, 0) } else { Record::new(kind, flag, id, 1, 1) };
                driver.play(change).unwrap();
                for index in (0..16).rev().chain(0..16) {
                    driver.play(Record::new(7, 0, index, 0, 0)).unwrap();
                }
                driver.check().unwrap();
                runs += 1;
            }
        }
    }
    println!("{runs} runs from a moved finger, all answers the row's");
    assert_eq!(runs, 450);
}
