//! The comparison sees every word: with any one of them changed in the port, the next call is found out. So is a call for which
//! the port is handed a wrong cursor.

use beside::both::Both;
use oracle::cursors::{Giver, Step, GIVERS, HANDED};
use oracle::driver::Driver;
use oracle::patterns::giving;
use oracle::record::{Call, Record};
use oracle::row::Row;
use oracle::seats::Seats;
use oracle::state::{Head, NONE};
use smelvock::raw::Cursor;
use std::panic::{catch_unwind, AssertUnwindSafe};

/// Twelve entries (1, 2, 3) with room for two more.
fn twelve() -> Driver<Both<4>> {
    let mut driver = Driver::beside(Both::make(14, [1, 2, 3]), Row::make(14, [1, 2, 3]), 0);
    driver.play_all(&[Record::new(3, 0, NONE, 1, 2).with_lines(3); 11]).unwrap();
    driver
}

/// Whether the comparison fails or a call is refused that the row answers.
fn parts(mut driver: Driver<Both<4>>, step: impl Into<Step>) -> bool {
    catch_unwind(AssertUnwindSafe(|| driver.play(step).unwrap())).is_err()
}

/// With a finger from that lookup; `len`, which reads no word of the areas, is played after the change.
fn found_out(looked: impl Into<Step>, spoil: impl Fn(&mut Head, [&mut [u32]; 3])) -> bool {
    let mut driver = twelve();
    driver.play(looked).unwrap();
    driver.subject.spoil(spoil);
    parts(driver, Call::Count)
}

#[test]
fn a_changed_word_is_found_out() {
    std::panic::set_hook(Box::new(|_| ()));
    let located = Call::Lookup { view: 0, index: 5 };
    assert!(!found_out(located, |_, _| ()));
    let mut words = 0;
    for (area, length) in [7 * 19, 7 * 19, 14].into_iter().enumerate() {
        for at in 0..length {
            assert!(found_out(located, |_, areas| areas[area][at] ^= 1), "area {area}, word {at}");
            words += 1;
        }
    }
    assert!(found_out(located, |head, _| head.root += 1) && found_out(located, |head, _| head.levels += 1));
    assert!(found_out(located, |head, _| head.leaf_count += 1) && found_out(located, |head, _| head.inner_count -= 1));
    assert!(found_out(located, |head, _| head.seats = Some(Seats::new([0; 8]))));
    for looked in [located, Call::Select { view: 0, index: 5 }, Call::Lookup { view: 2, index: 16 }] {
        assert!(!found_out(looked, |_, _| ()));
        assert!(found_out(looked, |head, _| head.finger = None));
        assert!(found_out(looked, |head, _| head.finger.as_mut().unwrap().view ^= 1));
        assert!(found_out(looked, |head, _| head.finger.as_mut().unwrap().start += 1));
        assert!(found_out(looked, |head, _| head.finger.as_mut().unwrap().within += 1));
        assert!(found_out(looked, |head, _| head.finger.as_mut().unwrap().effect_within += 1));
        assert!(found_out(looked, |head, _| head.finger.as_mut().unwrap().prepare += 1));
        assert!(found_out(looked, |head, _| head.finger.as_mut().unwrap().prepare_within += 1));
    }
    let _ = std::panic::take_hook();
    println!("{words} words of the areas, line ends among them, and 26 changes of the head, each found out");
}

/// Whether a call of that kind is found out that is handed the cursor of such a call, changed in the port.
fn handed_found_out(giver: Giver, kind: u8, spoil: impl Fn(&mut Cursor)) -> bool {
    let mut driver = twelve();
    driver.play(giving(giver, if giver == Giver::First { 0 } else { 5 }).unwrap()).unwrap();
    let (from, id) = driver.held.last((giver == Giver::SplitFirst) as usize).unwrap();
    driver.subject.spoil_held(spoil);
    parts(
        driver,
        Step { from, ..Record::new(kind, 0, id, 0, (kind <= 6) as u32).with_lines((kind <= 6) as u16).into() },
    )
}

#[test]
fn a_wrong_cursor_handed_on_is_found_out() {
    let wrong: [fn(&mut Cursor); 5] =
        [|at| at.leaf ^= 1, |at| at.slot ^= 1, |at| at.slot += 2, |at| at.stamp += 1, |at| at.stamp -= 1];
    let mut played = 0;
    for (giver, kind) in GIVERS.into_iter().flat_map(|giver| HANDED.map(|kind| (giver, kind))) {
        assert!(!handed_found_out(giver, kind, |_| ()), "{giver:?}, kind {kind}");
        for spoil in wrong {
            assert!(handed_found_out(giver, kind, spoil), "{giver:?}, kind {kind}, change {played}");
            played += 1;
        }
    }
    println!("{played} calls that were handed a wrong cursor, each found out");
}
