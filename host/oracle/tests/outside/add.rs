//! `add`, which document 02 retires: lists with it are outside domain D.

use super::*;
use oracle::random::Random;

/// `add` does what `insert` does, word for word, and answers the id alone.
#[test]
fn add_is_insert_without_the_position() {
    let (mut added, mut inserted) = (Tree::new(pair([3, 3])), Tree::new(pair([3, 3])));
    let mut random = Random::new(6);
    for count in 1..2_000 {
        let before = random.percent(80).then(|| random.below(count) as u32);
        let lengths = pair([0; 2].map(|_: u32| random.below(5) as u32));
        let looked = random.below(3) as u32;
        assert_eq!(added.locate(View::Prepare, looked).1, inserted.locate(View::Prepare, looked).1);
        let [a, b] = [&added, &inserted].map(|tree| before.map(|id| tree.cursor(id)));
        assert_eq!(added.add(a, lengths), inserted.insert(b, lengths).0);
        assert_eq!(added.state(2_000, &[]), inserted.state(2_000, &[]));
    }
}
