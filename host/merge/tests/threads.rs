//! Many sheets on many threads are merged as one after the other.

use histories::history;
use merge::side_by_side::{merged, History};
use oracle::random::Random;
use oracle::tree as lib_rs;
use smelvock::{PlanningTree, PrepareEffectTree, ReadingCopy};

#[test]
fn threads_change_no_sheet() {
    let histories: Vec<History> = (0..16).map(|seed| history(&mut Random::new(seed), 3, 40)).collect();
    let wanted = merged::<lib_rs::PrepareEffectTree<8>>(&histories, 256, 1);
    assert!(wanted.iter().all(Result::is_ok) && wanted.windows(2).all(|pair| pair[0] != pair[1]));
    for threads in [1, 2, 3, 8] {
        assert_eq!(merged::<PrepareEffectTree<8>>(&histories, 256, threads), wanted, "{threads} threads");
    }
    println!("{} sheets on 1, 2, 3 and 8 threads", wanted.len());
}

/// A tree may be handed to another thread, and read by many.
#[test]
fn a_tree_may_go_to_another_thread() {
    fn may_go<T: Send + Sync>() {}
    may_go::<PrepareEffectTree<8>>();
    may_go::<PlanningTree<8>>();
    may_go::<ReadingCopy<8>>();
}
