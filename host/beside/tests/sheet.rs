//! The sheet on paper (document 02, CR 2): the bytes that `print` writes are the pages that the oracle makes of lib.rs's own answers,
//! and those of the plain row. Bytes past the last page, head and areas stay; guards stand around each.

use beside::both::Both;
use beside::exports::{unprinted, Export, Given, Tree, UNPRINTED};
use beside::port::three;
use beside::words::{on_zeros, tree_of};
use oracle::driver::Driver;
use oracle::fans::FANS;
use oracle::lists::{with_resets, Lister, Sizes, Style, EVEN, GROWING};
use oracle::random::Random;
use oracle::record::Record;
use oracle::row::Row;
use oracle::sheet::{of_row, of_tree};
use oracle::state::NONE;
use oracle::{at_fan, rust, tree};
use smelvock::raw::word::{ENTRIES, FAN, LEAVES};
use smelvock::{PrepareEffectTree, Refusal, PAGE_BYTES};
use std::collections::BTreeSet;

/// A debug build plays fewer.
const SCALE: u64 = if cfg!(debug_assertions) { 1 } else { 10 };

const SIZES: [Sizes; 3] = [Sizes::Small, Sizes::Zeros, Sizes::NearEnd];

/// Prints in a buffer of the wanted pages and so many bytes more, and says what is wrong, if anything is.
fn compared(tree: &Tree, wanted: &str, more: usize) -> Result<(), String> {
    let before = Tree { page: unprinted(wanted.len() + more), ..tree.clone() };
    let mut after = before.clone();
    let answer = Export::Print.play(&mut after, &Given::default());
    let (sheet, rest) = after.page.words().split_at(wanted.len());
    let parted = sheet.chunks(55).zip(wanted.as_bytes().chunks(55)).position(|(line, wanted)| line != wanted);
    if let Some(line) = parted {
        let [printed, wanted] =
            [sheet, wanted.as_bytes()].map(|sheet| String::from_utf8_lossy(&sheet[line * 55..][..55]));
        return Err(format!("line {line}: {printed:?}, wanted {wanted:?}"));
    }
    if (answer.number, answer.values[0] as usize * PAGE_BYTES) != (0, wanted.len()) {
        return Err(format!("{answer:?}"));
    }
    if rest.iter().any(|&byte| byte != UNPRINTED) {
        return Err("bytes past the last page are changed".into());
    }
    let lent_as_it_was = Tree { page: before.page.clone(), ..after } == before;
    lent_as_it_was.then_some(()).ok_or("head or areas are changed".into())
}

/// lib.rs's sheet is the row's; the port prints it in a buffer of just its length, of a byte more, and of a page more.
fn same_sheet<const N: usize>(driver: &Driver<Both<N>>) {
    let wanted = driver.subject.sheet();
    assert_eq!(wanted, of_row(&driver.row), "N {N}, lib.rs and the row");
    let tree = Tree::of(driver.subject.port());
    for more in [0, 1, PAGE_BYTES] {
        compared(&tree, &wanted, more).unwrap_or_else(|fault| panic!("N {N}, {} entries: {fault}", driver.row.count()));
    }
}

fn beside<const N: usize>(limit: u32, lengths: [u32; 3]) -> Driver<Both<N>> {
    Driver::beside(Both::make(limit, lengths), Row::make(limit, lengths), 0)
}

/// Inserts and splits until there are so many entries, then changes and lookups that keep their number.
fn grow<const N: usize>(driver: &mut Driver<Both<N>>, lister: &mut Lister, random: &mut Random, entries: u32) {
    while driver.row.count() < entries {
        let kind = 2 + random.below(3) as u8;
        driver.play(lister.good(kind, &driver.row)).unwrap();
    }
    for _ in 0..30 {
        let kind = 5 + random.below(3) as u8;
        driver.play(lister.good(kind, &driver.row)).unwrap();
    }
}

/// The sheet at each of these numbers of entries, and the lengths met on it.
fn growing<const N: usize>(limit: u32, sizes: Sizes, first: [u32; 3], met: &mut BTreeSet<u32>) {
    let mut lister = Lister::new(N as u64, Style { weights: GROWING, sizes, close: 50, miss: 0 });
    let mut random = Random::new(N as u64);
    let mut driver = beside::<N>(limit, first);
    for entries in [1, 49, 50, 51, 100, limit] {
        same_sheet(&driver);
        met.extend(driver.row.entries.iter().flat_map(|entry| entry.lengths));
        grow(&mut driver, &mut lister, &mut random, entries);
        assert_eq!(driver.row.count(), entries);
        same_sheet(&driver);
    }
}

#[test]
fn of_1_49_50_51_100_entries_and_the_limit() {
    let mut met = BTreeSet::new();
    let (mut sheets, limits) = (0, [101, 150, 512]);
    for (fan, sizes) in FANS.into_iter().flat_map(|fan| SIZES.map(|sizes| (fan, sizes))) {
        let limit = limits[sheets % limits.len()];
        let first = [[3; 3], [u32::MAX, 0, 1], [0, u32::MAX, 0]][(sheets + fan as usize) % 3];
        at_fan!(fan, N => growing::<N>(limit, sizes, first, &mut met));
        sheets += 1;
    }
    assert!(met.contains(&0) && met.contains(&u32::MAX) && met.range(1_000_000_000..u32::MAX).count() > 10);
    println!("sheets of 1, 49, 50, 51, 100 entries and the limit, {sheets} trees; {} lengths met", met.len());
}

/// Both kinds of entries whose length in a view is all of that view, at both ends of the sheet, and entries of no length between.
#[test]
fn of_lengths_of_0_and_of_4294967295() {
    fn ends<const N: usize>(first: [u32; 2], entries: u32) {
        let mut driver = beside::<N>(entries, [first[0], first[1], 9]);
        let none = Record::new(3, 0, NONE, 0, 0);
        driver.play_all(&vec![none; entries as usize - 2]).unwrap();
        driver.play(Record::new(3, 0, NONE, u32::MAX - first[0], u32::MAX - first[1])).unwrap();
        same_sheet(&driver);
    }
    for fan in FANS {
        for first in [[u32::MAX, u32::MAX], [0, 0], [u32::MAX, 0], [0, u32::MAX], [1, u32::MAX - 1]] {
            for entries in [2, 50, 51, 120] {
                at_fan!(fan, N => ends::<N>(first, entries));
            }
        }
    }
}

/// Lists with resets and refused calls, and a sheet after every few calls.
#[test]
fn after_random_changes() {
    fn changes<const N: usize>(sizes: Sizes, lists: u64) -> u64 {
        let weights = with_resets(if sizes == Sizes::Zeros { GROWING } else { EVEN });
        for list in 0..lists {
            let mut lister = Lister::new(list * 64 + N as u64, Style { weights, sizes, close: 50, miss: 4 });
            let mut driver = beside::<N>(180, [2, 1, 1]);
            for _ in 0..40 {
                driver.play_drawn(&mut lister, 17).unwrap();
                same_sheet(&driver);
            }
        }
        lists * 40
    }
    let mut sheets = 0;
    for (fan, sizes) in FANS.into_iter().flat_map(|fan| SIZES.map(|sizes| (fan, sizes))) {
        sheets += at_fan!(fan, N => changes::<N>(sizes, SCALE));
    }
    println!("{sheets} sheets after random changes");
}

/// The most entries of any tree: 1,311 pages. The port has lib.rs's own words, and as many line ends in each entry as its id.
#[test]
fn of_65536_entries() {
    fn whole<const N: usize>() {
        let mut random = Random::new(N as u64);
        let mut rust = tree::PrepareEffectTree::<N>::new(rust::pair([0, 7]));
        while rust.len() < 65_536 {
            let before = rust.cursor(random.below(rust.len() as u64) as u32);
            let lengths = [random.below(100_000) as u32 / 2, 1 << random.below(16)];
            rust.insert(Some(before), rust::pair(lengths));
        }
        let port = tree_of::<N>(rust.state(65_536, &(0..65_536).collect::<Vec<u32>>()));
        let wanted = of_tree(&rust);
        assert_eq!(wanted.len(), 1_311 * PAGE_BYTES);
        compared(&Tree::of(&port), &wanted, 1).unwrap_or_else(|fault| panic!("N {N}: {fault}"));
        assert!(port.sheet() == Ok(wanted.into_bytes()));
    }
    for fan in [4, 8, 32] {
        at_fan!(fan, N => whole::<N>());
    }
}

/// A tree of so many entries of lengths (0 to 4, 3 to 13, 0 to 6), with a finger.
fn some<const N: usize>(entries: u32) -> PrepareEffectTree<N> {
    let mut tree = on_zeros::<N>(entries, [1, 7, 2]);
    for id in 1..entries {
        let before = (id % 3 != 0).then(|| tree.cursor(id * 7 % id).unwrap());
        tree.insert(before, three([id % 5, 3 + id % 11, id % 7])).unwrap();
    }
    tree.locate(smelvock::View::Effect, entries).unwrap();
    tree
}

/// Every length below 2,750 bytes a page is refused, with the buffer as it was; the first that isn't is just that.
#[test]
fn every_buffer_too_short_is_12() {
    let mut played = 0;
    for (fan, entries) in [(4, 1), (5, 50), (8, 51), (32, 100), (8, 101)] {
        let tree = at_fan!(fan, N => Tree::of(&some::<N>(entries)));
        let needed = tree.page.words().len();
        for bytes in 0..needed {
            let before = Tree { page: unprinted(bytes), ..tree.clone() };
            let mut after = before.clone();
            let answer = Export::Print.play(&mut after, &Given::default());
            assert_eq!((answer.number, &answer.values[..]), (12, &[0][..]), "{entries} entries, {bytes} bytes");
            assert!(after == before, "{entries} entries, {bytes} bytes");
            played += 1;
        }
        assert_eq!(Export::Print.play(&mut tree.clone(), &Given::default()).number, 0);
    }
    println!("{played} buffers too short");
}

/// `host/smelvock`'s own two calls, and what its refusal says.
#[test]
fn print_and_sheet_of_a_tree() {
    let tree = some::<8>(51);
    let sheet = tree.sheet().unwrap();
    let mut page = vec![UNPRINTED; 3 * PAGE_BYTES];
    assert_eq!(tree.print(&mut page), Ok(2));
    assert_eq!(page, [&sheet[..], &[UNPRINTED; PAGE_BYTES][..]].concat());
    assert_eq!(tree.print(&mut page[..2 * PAGE_BYTES]), Ok(2));

    let short = tree.print(&mut page[..2 * PAGE_BYTES - 1]).unwrap_err();
    assert_eq!(short, Refusal::BUFFER);
    assert_eq!(
        short.to_string(),
        "refused by 12: the buffer is below 2,750 bytes a page, or the list area below 512 words"
    );
    assert_eq!(tree.print(&mut []), Err(short));

    // what an unsound head counts isn't allocated
    let with = |word: usize, value: u32| {
        let mut head = tree.head();
        head[word] = value;
        let [leaves, inners, homes] =
            [tree.areas().leaves, tree.areas().inners, tree.areas().homes].map(<[u32]>::to_vec);
        PrepareEffectTree::<8>::from_words(head, leaves, inners, homes).sheet()
    };
    assert_eq!(with(ENTRIES, u32::MAX), Err(Refusal::BUFFER));
    assert_eq!(with(ENTRIES, 52), Err(Refusal::LINK));
    assert_eq!(with(FAN, 33), Err(Refusal::SIZE));
}

/// With any one byte of the wanted pages changed, or any word of an entry in the port's tree but its line ends, which no line has, the
/// comparison finds it out.
#[test]
fn a_changed_byte_or_word_is_found_out() {
    let port = some::<4>(51);
    let tree = Tree::of(&port);
    let wanted = String::from_utf8(port.sheet().unwrap()).unwrap();
    assert_eq!(compared(&tree, &wanted, 0), Ok(()));
    for place in 0..wanted.len() {
        let mut changed = wanted.clone().into_bytes();
        changed[place] ^= 1;
        let changed = String::from_utf8(changed).unwrap();
        assert!(compared(&tree, &changed, 0).is_err(), "byte {place}");
    }
    let mut words = 0;
    for leaf in 0..tree.word(LEAVES) as usize {
        let first = leaf * 19;
        for word in 0..4 * tree.leaves.words()[first] as usize {
            let mut changed = tree.clone();
            changed.leaves.words_mut()[first + 3 + word] += 1;
            let found_out = compared(&changed, &wanted, 0).is_err();
            assert_eq!(found_out, word % 4 < 3, "leaf {leaf}, word {word} of the slots");
            words += found_out as u32;
        }
    }
    assert_eq!(words, 3 * 51);
    // a page less, a page more, and a page whose rest isn't blank
    assert!(compared(&tree, &wanted[..PAGE_BYTES], PAGE_BYTES).is_err());
    assert!(compared(&tree, &(wanted.clone() + &wanted[PAGE_BYTES..]), 0).is_err());
    println!("{} changed bytes and {words} changed words, each found out", wanted.len());
}
