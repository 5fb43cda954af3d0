//! Unsound trees: every export ends on them, writes in its areas and its buffer only (guards stand around each), answers a number
//! of document 01, 12 to 14, 17 to 19 or 21, and audit's verdict is that of oracle's audit, which is written from the paper.

use beside::exports::{unprinted, Area, Export, Given, Tree, EXPORTS, UNPRINTED};
use beside::port::three;
use beside::words::{head_of, on_zeros, parted, seated};
use oracle::at_fan;
use oracle::audit::{audit, Verdict};
use oracle::fans::FANS;
use oracle::random::Random;
use oracle::state::{node_words, State, MOST_LINES, NONE};
use smelvock::raw::word::{CHARGES, ENTRIES, FAN, LEAVES, LIMIT, PRESENT, SEATED, SHARES};
use smelvock::raw::{Cursor, Lengths};
use smelvock::{View, PAGE_BYTES};

const SCALE: u64 = if cfg!(debug_assertions) { 1 } else { 10 };

/// How often each number was answered, by 0 to 21, and how often audit said yes and no.
#[derive(Default, Debug)]
struct Met {
    numbers: [u64; 22],
    sound: u64,
    unsound: u64,
    /// How often print wrote lines and then met 9.
    half_printed: u64,
}

impl Met {
    /// Notes the number of a tree's call; those of records and of files of edits are none.
    fn number(&mut self, number: u32) {
        assert!(number <= 21 && ![11, 15, 16, 20].contains(&number), "{number}");
        self.numbers[number as usize] += 1;
    }
}

fn sound<const N: usize>(entries: u32) -> Tree {
    let mut tree = on_zeros::<N>(entries + 3, [1, 7, 2]);
    for id in 1..entries {
        let before = (id % 3 != 0).then(|| tree.cursor(id * 7 % id).unwrap());
        tree.insert(before, three([1 + id % 5, 3 + id % 11, 2 + id % 7])).unwrap();
    }
    tree.locate(View::Prepare, entries).unwrap();
    Tree::of(&tree)
}

/// The same with seats: of each three entries the first two are seat 1's, the third is seat 6's; seats 0 and 7 have shares that they
/// haven't used, and three entries are free.
fn sound_seated<const N: usize>(entries: u32) -> Tree {
    let shares = [1, entries / 3, 0, 0, 0, 0, 2, 2];
    let mut tree = seated::<N>(entries + 3, [1, 7, 2], shares);
    for id in 1..entries {
        let before = (id % 3 != 0).then(|| tree.cursor(id * 7 % id).unwrap());
        let seat = if id % 3 == 0 { 6 } else { 1 };
        tree.insert_for(seat, before, three([1 + id % 5, 3 + id % 11, 2 + id % 7])).unwrap();
    }
    tree.locate(View::Prepare, entries).unwrap();
    Tree::of(&tree)
}

/// The port's verdict is the paper's; a flag of the finger or of the seats that is neither 0 nor 1 is refused by 10.
fn audited(tree: &Tree, given: &Given, met: &mut Met) {
    let answer = Export::Audit.play(&mut tree.clone(), given);
    let [leaves, inners, homes] = [&tree.leaves, &tree.inners, &tree.homes].map(|area| area.words().to_vec());
    let head = tree.head.words().try_into().expect("thirty-six words");
    let wanted = match audit(&State { head: head_of(head), leaves, inners, homes }) {
        _ if tree.word(PRESENT) > 1 || tree.word(SEATED) > 1 => [10, 0],
        Verdict::Refused(number) => [number as u32, 0],
        Verdict::Yes => [0, 1],
        Verdict::No(_) => [0, 0],
    };
    assert_eq!([answer.number, answer.values[0]], wanted, "{tree:?}");
    met.sound += (wanted == [0, 1]) as u64;
    met.unsound += (wanted == [0, 0]) as u64;
}

/// Print leaves head and areas. It writes whole lines from the buffer's start on: those of all pages where it answers 0, fewer
/// than the head's entries where it met 9 on the way, none where it was refused before.
fn printed(tree: &Tree, met: &mut Met) {
    let mut after = tree.clone();
    let answer = Export::Print.play(&mut after, &Given::default());
    let unwritten = after.page.words().iter().position(|&byte| byte == UNPRINTED).unwrap_or(after.page.words().len());
    let (lines, rest) = after.page.words().split_at(unwritten);
    assert!(lines.len() % 55 == 0 && lines.chunks(55).all(is_line), "{tree:?}");
    assert!(rest.iter().all(|&byte| byte == UNPRINTED), "{tree:?}");
    let (entries, lines) = (tree.word(ENTRIES) as usize, lines.len() / 55);
    match answer.number {
        0 => assert_eq!([lines, answer.values[0] as usize * 50], [entries.next_multiple_of(50); 2]),
        9 => assert!(lines < entries.max(1) && answer.values == [0]),
        number => assert!([1, 2, 10, 12].contains(&number) && lines == 0 && answer.values == [0]),
    }
    assert_eq!(Tree { page: tree.page.clone(), ..after }, *tree);
    met.half_printed += (answer.number == 9 && lines > 0) as u64;
}

/// Five columns of digits behind blanks, or of blanks, with a blank or at last a line feed behind each.
fn is_line(line: &[u8]) -> bool {
    let column = |column: &[u8]| column[..10].trim_ascii_start().iter().all(u8::is_ascii_digit);
    line.chunks(11).all(column) && line.iter().skip(10).step_by(11).eq(b"    \n")
}

/// Every export once, each on the damaged tree itself.
fn every_export(tree: &Tree, random: &mut Random, met: &mut Met) {
    for export in EXPORTS {
        let given = given(tree, random);
        met.number(export.play(&mut tree.clone(), &given).number);
    }
    printed(tree, met);
    audited(tree, &given(tree, random), met);
}

/// Arguments that are often good: a place within the areas, mostly the stamp of the head, a position near by, mostly a seat where the
/// head has any.
fn given(tree: &Tree, random: &mut Random) -> Given {
    let mut small = |end: u32| random.below(end.clamp(1, 1 << 20) as u64 + 1) as u32;
    let mut at = || Cursor {
        leaf: small(tree.word(LEAVES)),
        slot: small(tree.word(FAN) / 2),
        stamp: tree.stamp() ^ (small(15) == 0) as u64,
    };
    let [at, other] = [at(), at()];
    Given {
        at,
        other,
        id: small(tree.word(ENTRIES)),
        view: small(2),
        index: small(200),
        lengths: Lengths { prepare: small(3), effect: small(3), lines: small(3) },
        end: small(1),
        before: small(1),
        fan: tree.word(FAN),
        limit: tree.word(LIMIT),
        shares: (small(3) == 0).then(|| [0; 8].map(|_: u32| small(2))),
        seat: ((tree.word(SEATED) == 0) == (small(15) == 0)).then(|| small(8)),
    }
}

/// Other values for a word: its neighbours, some single bits, and the ends.
fn others(word: u32) -> impl Iterator<Item = u32> {
    let bits = [0, 1, 2, 4, 8, 16, 31].into_iter().map(move |bit| word ^ 1 << bit);
    bits.chain([word.wrapping_add(1), word.wrapping_sub(1), 0, u32::MAX]).filter(move |&other| other != word)
}

/// Every word of head and areas, one at a time, and every export after each.
fn flip_every_word(mut tree: Tree, met: &mut Met) {
    let mut random = Random::new(3);
    let mut flips = 0;
    let areas = [tree.leaves.words().len(), tree.inners.words().len(), tree.homes.words().len()];
    let places = (0..36).map(|at| (3, at)).chain((0..3).flat_map(|area| (0..areas[area]).map(move |at| (area, at))));
    for (area, at) in places {
        let word = *word(&mut tree, area, at);
        for other in others(word) {
            *self::word(&mut tree, area, at) = other;
            every_export(&tree, &mut random, met);
            flips += 1;
        }
        *self::word(&mut tree, area, at) = word;
    }
    println!("fan {}, {} entries: {flips} flips, every export after each", tree.word(FAN), tree.word(ENTRIES));
}

fn word(tree: &mut Tree, area: usize, at: usize) -> &mut u32 {
    match area {
        0 => &mut tree.leaves.words_mut()[at],
        1 => &mut tree.inners.words_mut()[at],
        2 => &mut tree.homes.words_mut()[at],
        _ => &mut tree.head.words_mut()[at],
    }
}

#[test]
fn every_single_flipped_word() {
    let mut met = Met::default();
    flip_every_word(sound::<4>(9), &mut met);
    flip_every_word(sound::<5>(12), &mut met);
    flip_every_word(sound_seated::<4>(9), &mut met);
    if SCALE > 1 {
        flip_every_word(sound::<4>(30), &mut met);
        flip_every_word(sound::<8>(30), &mut met);
        flip_every_word(sound::<32>(40), &mut met);
        flip_every_word(sound_seated::<8>(30), &mut met);
    }
    println!("{met:?}");
    assert!(
        met.unsound > 1_000
            && [0, 1, 2, 3, 9, 10, 12, 13, 14, 17, 18, 19, 21].iter().all(|&number| met.numbers[number] > 0)
    );
}

/// Gives an entry those line ends, in its leaf and in every sum above it: where there are too many, nothing else is wrong.
fn with_lines(tree: &Tree, leaf: usize, slot: usize, lines: u32) -> Tree {
    let mut tree = tree.with(PRESENT, 0);
    let node = node_words(tree.word(FAN));
    let line_word = |slot: usize| 3 + 4 * slot + 3;
    let more = lines.wrapping_sub(tree.leaves.words()[leaf * node + line_word(slot)]);
    let mut words = &mut tree.leaves.words_mut()[leaf * node..][..node];
    let mut at = slot;
    loop {
        words[line_word(at)] = words[line_word(at)].wrapping_add(more);
        let parent = words[1];
        if parent == NONE {
            return tree;
        }
        at = words[2] as usize;
        words = &mut tree.inners.words_mut()[parent as usize * node..][..node];
    }
}

/// One line end more than an entry may have, in each leaf slot in use, is unsound by both audits; as many as it may have is sound.
#[test]
fn too_many_line_ends_in_a_leaf_slot() {
    let (mut met, mut slots) = (Met::default(), 0);
    let given = Given::default();
    for fan in FANS {
        let tree = at_fan!(fan, N => sound::<N>(34 + N as u32 * 3 / 2));
        let node = node_words(fan);
        for leaf in 0..tree.word(LEAVES) as usize {
            for slot in 0..tree.leaves.words()[leaf * node] as usize {
                for lines in [0, MOST_LINES, MOST_LINES + 1, 1 << 31] {
                    let tree = with_lines(&tree, leaf, slot, lines);
                    let before = [met.sound, met.unsound];
                    audited(&tree, &given, &mut met);
                    let sound = lines <= MOST_LINES;
                    let wanted = [before[0] + sound as u64, before[1] + !sound as u64];
                    assert_eq!([met.sound, met.unsound], wanted, "fan {fan}, leaf {leaf}, slot {slot}, {lines}");
                }
                slots += 1;
            }
        }
    }
    println!("{slots} leaf slots, each with 65,535 line ends and with more: {met:?}");
    assert_eq!([met.sound, met.unsound], [2 * slots; 2]);
}

/// Whether both audits say yes to the tree with those words in its head.
fn both_say<const K: usize>(tree: &Tree, words: [(usize, u32); K]) -> bool {
    let damaged = words.into_iter().fold(tree.clone(), |tree, (word, value)| tree.with(word, value));
    let mut met = Met::default();
    audited(&damaged, &Given::default(), &mut met);
    met.sound == 1
}

/// Each of the three things that are asked of seats: a charge too many or too few, a share that the free entries don't cover, shares
/// that sum too high. Charges that move from seat to seat are sound while what is unused is covered. In a tree without seats their words
/// are of no account.
#[test]
fn damaged_shares_and_charges() {
    for fan in FANS {
        let tree = at_fan!(fan, N => sound_seated::<N>(9));
        let charges: Vec<u32> = (0..8).map(|seat| tree.word(CHARGES + seat)).collect();
        assert_eq!((tree.word(LIMIT), &charges[..]), (12, &[0, 6, 0, 0, 0, 0, 2, 0][..]));
        assert!(both_say(&tree, []));
        for seat in 0..8 {
            let (share, charge) = (tree.word(SHARES + seat), charges[seat]);
            for other in others(charge) {
                assert!(!both_say(&tree, [(CHARGES + seat, other)]), "seat {seat}, charge {other}");
                let plain = [(SEATED, 0), (CHARGES + seat, other)];
                assert!(both_say(&tree, plain), "seat {seat}, charge {other}, without seats");
            }
            for other in others(share) {
                // the three entries are free for one of seat 0 and two of seat 7
                let unused = other.saturating_sub(charge) <= share.saturating_sub(charge);
                assert_eq!(both_say(&tree, [(SHARES + seat, other)]), unused, "seat {seat}, share {other}");
                assert!(both_say(&tree, [(SEATED, 0), (SHARES + seat, other)]), "seat {seat}, share {other}");
            }
        }
        // one of seat 1's six charged to seat 3, to seat 0, to seat 7; one of seat 6's, which is at its share, to seat 1
        for (from, to, sound) in [(1, 3, true), (1, 0, true), (1, 7, true), (6, 1, false), (6, 0, true)] {
            let moved = [(CHARGES + from, charges[from] - 1), (CHARGES + to, charges[to] + 1)];
            assert_eq!(both_say(&tree, moved), sound, "from {from} to {to}");
        }
        let sums = [(SHARES + 1, u32::MAX), (SHARES + 2, u32::MAX), (SHARES + 3, 2)];
        assert!(!both_say(&tree, sums), "shares that sum to 2^33 and a little");
        let wrapped = [(CHARGES, u32::MAX), (CHARGES + 2, 1)];
        assert!(!both_say(&tree, wrapped), "charges that sum to 8 in 32 bits");
    }
}

/// A damaged head whose seats are below their shares although the tree holds its limit: 18 says nothing of it, so that it is 9.
#[test]
fn a_full_tree_below_its_shares_is_9() {
    for fan in FANS {
        let mut tree = at_fan!(fan, N => sound_seated::<N>(9));
        let end = Given { end: 1, lengths: Lengths { prepare: 1, effect: 1, lines: 1 }, ..Given::default() };
        for seat in [0, 7, 7] {
            assert_eq!(Export::Insert.play(&mut tree, &Given { seat: Some(seat), ..end }).number, 0);
        }
        for seat in 0..8 {
            let at = Cursor { leaf: 0, slot: 0, stamp: tree.stamp() };
            let lengths = Lengths { prepare: 0, effect: 1, lines: 0 };
            let given = Given { at, seat: Some(seat), ..end };
            let entitled = tree.with(SHARES + seat as usize, 100);
            for (tree, number) in [(&tree, 18), (&entitled, 9)] {
                let played = |export: Export, given: Given| export.play(&mut tree.clone(), &given).number;
                assert_eq!(played(Export::Insert, given), number, "seat {seat}");
                assert_eq!(played(Export::SplitEntry, Given { lengths, ..given }), number, "seat {seat}");
            }
        }
    }
}

/// Several words at once; then a chain of calls, each on what the one before left.
#[test]
fn chains_of_calls_on_damaged_trees() {
    let mut met = Met::default();
    let mut random = Random::new(4);
    let mut trees = FANS.map(|fan| at_fan!(fan, N => sound::<N>(34 + N as u32 * 3 / 2))).to_vec();
    trees.extend(FANS.map(|fan| at_fan!(fan, N => sound_seated::<N>(34 + N as u32 * 3 / 2))));
    for _ in 0..3_000 * SCALE {
        let mut tree = trees[random.below(trees.len() as u64) as usize].clone();
        for _ in 0..1 + random.below(6) {
            let area = random.below(4) as usize;
            let length = [tree.leaves.words().len(), tree.inners.words().len(), tree.homes.words().len(), 36][area];
            let at = random.below(length as u64) as usize;
            let value = [0, 1, 2, 4, 19, u32::MAX, random.word() as u32][random.below(7) as usize];
            *word(&mut tree, area, at) = value;
        }
        for _ in 0..20 {
            let export = EXPORTS[2 + random.below(EXPORTS.len() as u64 - 2) as usize];
            let given = given(&tree, &mut random);
            met.number(export.play(&mut tree, &given).number);
        }
        printed(&Tree { page: unprinted(2 * PAGE_BYTES), ..tree.clone() }, &mut met);
        audited(&tree, &given(&tree, &mut random), &mut met);
    }
    println!("{met:?}");
    assert!(met.unsound > 100 * SCALE && met.numbers[9] > 0 && met.half_printed > 0);
}

/// Areas and head of words that are all drawn at random, small ones often, so that links lead about.
#[test]
fn random_words() {
    let mut met = Met::default();
    let mut random = Random::new(5);
    for _ in 0..3_000 * SCALE {
        let fans = if random.percent(90) { 5 } else { 40 };
        let fan = 4 + random.below(fans) as u32;
        let limit = 1 + random.below(60) as u32;
        let nodes = (limit / (fan / 2)).max(1);
        let mut draw = |count: u32| {
            let words: Vec<u32> = (0..count)
                .map(|_| if random.percent(85) { random.below(nodes as u64 + 2) as u32 } else { random.word() as u32 })
                .collect();
            Area::new(&words)
        };
        let words = nodes * node_words(fan) as u32;
        let [leaves, inners, homes] = [draw(words), draw(words), draw(limit)];
        let finger: [u32; 8] = [0; 8].map(|_: u32| random.below(6) as u32);
        let [root, used, inners_used] = [0; 3].map(|_: u32| random.below(nodes as u64 + 1) as u32);
        let (levels, entries) = (random.below(6) as u32, random.below(limit as u64 + 2) as u32);
        let (present, view) = (random.below(2) as u32, random.below(4) as u32);
        let counts = [fan, limit, root, levels, used, inners_used, entries, present, view];
        let seats: [u32; 16] = [0; 16].map(|_: u32| random.below(4) as u32);
        let seated = [random.below(2) as u32];
        let head = Area::new(&[&counts[..], &finger, &parted(random.word()), &seated, &seats].concat());
        let page = unprinted(random.below(3) as usize * PAGE_BYTES);
        every_export(&Tree { head, leaves, inners, homes, page }, &mut random, &mut met);
    }
    println!("{met:?}");
    assert!(met.unsound > 100 * SCALE && met.numbers[9] > 0);
}
