//! The reading copy's lookup beside the full tree's, which stands in lib.rs's column; the title has the words that each needs.

use crate::reads::{each, CALLS};
use crate::timing::Table;
use oracle::random::Random;
use smelvock::{Lengths, PrepareEffectTree, ReadingCopy, View};

/// The words of head and areas at a limit, of a tree whose slots have so many words.
fn words(slot: usize, fan: usize, limit: usize) -> usize {
    36 + 2 * (limit / (fan / 2)).max(1) * (3 + slot * fan) + limit
}

/// Both trees from the same list of insertions at random places, with lengths of 0 to 7 and no line ends.
fn grown<const N: usize>(entries: u32) -> (PrepareEffectTree<N>, ReadingCopy<N>) {
    let mut random = Random::new(N as u64);
    let mut drawn = || Lengths { prepare: random.below(8) as u32, effect: random.below(8) as u32, lines: 0 };
    let first = drawn();
    let mut places = Random::new(entries as u64);
    let mut full = PrepareEffectTree::with_limit(entries, first).expect("fan and limit are good");
    let mut copy = ReadingCopy::with_limit(entries, first.effect).expect("fan and limit are good");
    for count in 1..entries {
        let (id, lengths) = (places.below(count as u64) as u32, drawn());
        let before = full.cursor(id).expect("it is there");
        let said = full.insert(Some(before), lengths).expect("there is room");
        assert_eq!(copy.insert(Some(id), lengths.effect), Ok(said));
    }
    (full, copy)
}

pub fn run<const N: usize>(entries: u32, rounds: usize) {
    let (mut full, mut copy) = grown::<N>(entries);
    let [there, here] = [4, 2].map(|slot| words(slot, N, entries as usize));
    let title =
        format!("reading copy for port, full tree for lib.rs, N {N}, {entries} entries, {here} and {there} words");
    let mut table = Table::new(title, rounds);
    let total = (0..entries).fold(0, |most, id| most.max(copy.rank(id).expect("it is there"))).max(1) as u64;
    let mut random = Random::new(7);
    let anywhere: Vec<u32> = (0..CALLS).map(|_| random.below(total) as u32).collect();
    let rising: Vec<u32> = (0..CALLS as u64).map(|call| (call * 3 % total) as u32).collect();
    for (name, at) in [("random", &anywhere), ("rising", &rising)] {
        table.kind(
            &format!("lookup, {name}"),
            || each(at, |&index| full.locate(View::Effect, index)),
            || each(at, |&index| copy.lookup(index)),
        );
        table.kind(
            &format!("lookup by id, {name}"),
            || each(at, |&index| full.locate(View::Effect, index).and_then(|(at, ..)| full.id(at))),
            || each(at, |&index| copy.lookup(index)),
        );
    }
    table.print();
}
