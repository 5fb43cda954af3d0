//! Unsound reading copies: every call ends on them, writes in head and areas only (guards stand around each) and answers a number that it
//! may. Where the damaged words are still a sound tree by document 01's tests, every answer is the row's of its entries.

use beside::damage::{change_some, flip_every_word, randomize};
use beside::exports::Tree;
use beside::reading::{is_sound, make, make_in, widened, Copies};
use beside::words::slots_of;
use oracle::fans::FANS;
use oracle::random::Random;
use oracle::record::Call;
use oracle::row::{Entry, Row};
use oracle::state::{EFFECT, NONE};
use smelvock::raw::word::{ENTRIES, FAN, INNERS, LEAVES, LIMIT, PRESENT};

const SCALE: u64 = if cfg!(debug_assertions) { 1 } else { 10 };

/// How often each number was answered, by 0 to 17, and how many trees were still sound and weren't.
#[derive(Default, Debug)]
struct Met {
    numbers: [u64; 18],
    sound: u64,
    unsound: u64,
}

/// The numbers that a call of the reading copy may answer. 13 and 14 come on unsound trees alone, where the entry after another, or the one
/// found, isn't in a leaf or slot in use.
const NUMBERS: [u32; 13] = [0, 1, 2, 4, 5, 6, 7, 8, 9, 10, 13, 14, 17];

fn sound(fan: u32, entries: u32) -> Tree {
    let (number, mut tree) = make(fan, entries + 3, 4);
    assert_eq!(number, 0);
    for id in 1..entries {
        let before = if id % 3 == 0 { NONE } else { id * 7 % id };
        assert_eq!(tree.play(Call::Insert { before, lengths: [0, 1 + id % 5, 0] }).0, 0);
    }
    assert_eq!(tree.play(Call::Lookup { view: EFFECT, index: entries }).0, 0);
    tree
}

/// The row of a sound tree's entries.
fn row_of(tree: &Tree) -> Row {
    let entries = slots_of(&widened(tree.words())).into_iter().map(|[id, lengths @ ..]| Entry { id, lengths });
    Row { limit: tree.word(LIMIT), entries: entries.collect(), seats: None }
}

/// Makes a call, on what the tree is then; a refusal other than 9 leaves everything, and 9 the head. The row's answer is wanted of a sound
/// tree.
fn played(tree: &mut Tree, call: Call, row: Option<&Row>, met: &mut Met) {
    let before = tree.clone();
    let (number, values) = tree.play(call);
    let may_be_astray = matches!(call, Call::Next { .. } | Call::Lookup { .. });
    assert!(NUMBERS.contains(&number) && (may_be_astray || ![13, 14].contains(&number)), "{call:?}: {number}");
    assert!(number == 0 || values == [0; 3], "{call:?}: {number} {values:?}");
    assert!(number == 0 || number == 9 || *tree == before, "{call:?}: {number} on {before:?}");
    assert!(number == 0 || tree.head == before.head, "{call:?}: {number} on {before:?}");
    assert!(number != 9 || !matches!(call, Call::Reset { .. }), "reset reads no link");
    if let Some(row) = row {
        let wanted = row.clone().answer(Some(call));
        assert_eq!((number, &values[..]), (wanted.number.into(), &wanted.fields[..3]), "{call:?} on {before:?}");
    }
    met.numbers[number as usize] += 1;
}

/// Every call, with arguments that are often good.
fn calls(tree: &Tree, random: &mut Random) -> [Call; 8] {
    let mut small = |end: u32| random.below(end.clamp(1, 1 << 20) as u64 + 1) as u32;
    let [a, b, c, d] = [small(4), small(4), small(4), small(4)].map(|effect| [0, effect, 0]);
    let mut id = || small(tree.word(ENTRIES));
    let [p, q, r, s, t, u, v] = [id(), id(), id(), id(), id(), id(), id()];
    [
        Call::Reset { lengths: a },
        Call::Insert { before: if small(3) == 0 { NONE } else { p }, lengths: b },
        Call::Split { id: q, lengths: c, before: small(1) == 0 },
        Call::Set { id: r, lengths: d },
        Call::Lookup { view: EFFECT, index: small(200) },
        Call::Rank { view: EFFECT, id: s },
        Call::Next { id: t },
        Call::Compare { first: u, second: v },
    ]
}

/// Every call once, each on the damaged tree itself, make too.
fn every_call(tree: &Tree, random: &mut Random, met: &mut Met) {
    let row = is_sound(tree.words()).then(|| row_of(tree));
    met.sound += row.is_some() as u64;
    met.unsound += row.is_none() as u64;
    calls(tree, random).into_iter().for_each(|call| played(&mut tree.clone(), call, row.as_ref(), met));
    let number = make_in(&mut tree.clone(), tree.word(FAN), tree.word(LIMIT), 1);
    assert!([0, 1, 2].contains(&number));
}

#[test]
fn every_single_flipped_word() {
    let mut met = Met::default();
    let trees: &[(u32, u32)] =
        if SCALE == 1 { &[(4, 9), (5, 12)] } else { &[(4, 9), (5, 12), (4, 30), (8, 30), (32, 40)] };
    for &(fan, entries) in trees {
        let mut random = Random::new(3);
        let flips = flip_every_word(sound(fan, entries), |tree| every_call(tree, &mut random, &mut met));
        println!("fan {fan}, {entries} entries: {flips} flips, every call after each");
    }
    println!("{met:?}");
    assert!(met.sound > 100 && met.unsound > 1_000, "{met:?}");
    assert!([0, 1, 2, 4, 5, 6, 9, 10, 17].iter().all(|&number| met.numbers[number] > 0), "{met:?}");
}

/// Several words at once; then a chain of calls, each on what the one before left.
#[test]
fn chains_of_calls_on_damaged_trees() {
    let (mut met, mut random) = (Met::default(), Random::new(4));
    let trees = FANS.map(|fan| sound(fan, 34 + fan * 3 / 2));
    for _ in 0..2_000 * SCALE {
        let mut tree = trees[random.below(trees.len() as u64) as usize].clone();
        change_some(&mut tree, &mut random);
        for _ in 0..12 {
            let call = calls(&tree, &mut random)[1 + random.below(7) as usize];
            played(&mut tree, call, None, &mut met);
        }
    }
    println!("{met:?}");
    assert!(met.numbers[9] > 1_000, "{met:?}");
}

/// Areas of nothing but random words, and a head with good counts.
#[test]
fn nothing_but_random_words() {
    let (mut met, mut random) = (Met::default(), Random::new(5));
    for _ in 0..2_000 * SCALE {
        let fan = FANS[random.below(FANS.len() as u64) as usize];
        let mut tree = sound(fan, 12);
        let counts = [LEAVES, INNERS].map(|word| tree.word(word));
        randomize(&mut tree, &mut random);
        tree = tree.with(PRESENT, random.below(2) as u32).with(LEAVES, counts[0]).with(INNERS, counts[1]);
        every_call(&tree, &mut random, &mut met);
    }
    println!("{met:?}");
    assert!(met.numbers[9] > 1_000 && met.unsound > 1_000, "{met:?}");
}
