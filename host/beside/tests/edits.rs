//! Files of edits that name their forerunners (document 02, CR 5): what the port's two calls answer and list is what the oracle's sets
//! say, made by joining the sets of the parents. Guards stand around file and area, and words after the list stay.

use beside::exports::Area;
use oracle::edits::{check, difference, file, record, Parents, Rests, MOST, NONE};
use oracle::random::Random;
use smelvock::{edits, raw, Refusal};
use std::collections::BTreeSet;

/// A debug build plays fewer.
const SCALE: u64 = if cfg!(debug_assertions) { 1 } else { 10 };

/// The area before a call: words that are no edit's number, each another.
fn area(words: usize) -> Area {
    Area::new(&(0..words as u32).map(|word| 1_000_000 + word).collect::<Vec<_>>())
}

/// Asks for a list in an area of so many words, and says what is wrong, if anything is.
fn compared(file: &[u8], words: usize, [first, second]: [u32; 2], wanted: Result<&[u32], u32>) -> Result<(), String> {
    let (lent, before) = (Area::new(file), area(words));
    let mut after = before.clone();
    let reply = raw::edits_difference(lent.words(), after.words_mut(), first, second);
    let (number, list) = wanted.map_or_else(|number| (number, &[][..]), |list| (0, list));
    if (reply.number, reply.value as usize) != (number, list.len()) {
        return Err(format!("{reply:?}, wanted {wanted:?}"));
    }
    let (front, rest) = after.words().split_at(list.len());
    if front != list {
        return Err(format!("{front:?}, wanted {list:?}"));
    }
    if rest != &before.words()[list.len()..] {
        return Err("words after the list are changed".into());
    }
    let guarded = after.guarded() && lent == Area::new(file);
    guarded.then_some(()).ok_or("something else is changed".into())
}

/// The same of every pair of edits given, and of `check`.
fn same(file: &[u8], words: usize, pairs: impl IntoIterator<Item = [u32; 2]>) -> u64 {
    let checked = check(file);
    assert_eq!(raw::edits_check(file), checked.as_ref().err().copied().unwrap_or(0), "{file:?}");
    let rests = checked.map(|edits| Rests::of(&edits));
    let mut played = 0;
    for pair in pairs {
        let wanted = match &rests {
            _ if !file.len().is_multiple_of(16) => Err(11),
            _ if words < MOST => Err(12),
            Ok(rests) => rests.difference(pair[0], pair[1]),
            Err(number) => Err(*number),
        };
        compared(file, words, pair, wanted.as_deref().map_err(|&number| number))
            .unwrap_or_else(|fault| panic!("{pair:?} of {file:?}, {words} words: {fault}"));
        played += 1;
    }
    played
}

/// Every pair of edits of a file, and of two numbers past it.
fn pairs(edits: u32) -> impl Iterator<Item = [u32; 2]> {
    let asked = move || (0..edits).chain([edits, NONE]);
    asked().flat_map(move |first| asked().map(move |second| [first, second]))
}

/// Every list of so many edits, each with two of the parents that it may have.
fn every_graph(edits: u32, parents: impl Fn(u32) -> Vec<u32> + Copy, play: &mut impl FnMut(&[Parents])) {
    fn further<P: Fn(u32) -> Vec<u32> + Copy>(
        made: &mut Vec<Parents>,
        edits: u32,
        parents: P,
        play: &mut impl FnMut(&[Parents]),
    ) {
        let edit = made.len() as u32;
        if edit == edits {
            return play(made);
        }
        for left in parents(edit) {
            for right in parents(edit) {
                made.push([left, right]);
                further(made, edits, parents, play);
                made.pop();
            }
        }
    }
    further(&mut Vec::new(), edits, parents, play);
}

#[test]
fn every_graph_of_up_to_5_edits() {
    let (mut files, mut played) = (0, 0);
    for edits in 0..=5 {
        let smaller = |edit: u32| (0..edit).chain([NONE]).collect();
        every_graph(edits, smaller, &mut |graph| {
            files += 1;
            played += same(&file(graph), MOST, pairs(edits));
        });
    }
    assert_eq!(files, 1 + 1 + 4 + 36 + 576 + 14_400);
    println!("{files} files of up to 5 edits, {played} pairs");
}

/// Parents of any number up to the count of edits, and the largest but none: all but 42 files are refused, by 15.
#[test]
fn every_graph_of_up_to_3_edits_with_late_parents() {
    let (mut files, mut refused) = (0, 0);
    for edits in 0..=3 {
        let any = move |_: u32| (0..=edits).chain([NONE - 1, NONE]).collect();
        every_graph(edits, any, &mut |graph| {
            let file = file(graph);
            files += 1;
            refused += (check(&file) == Err(15)) as u64;
            same(&file, MOST, [[0, 0], [edits, 0], [edits.wrapping_sub(1), 0]]);
        });
    }
    println!("{files} files of up to 3 edits with any parents, {refused} of them refused");
    assert_eq!((files, refused), (47_298, 47_256));
}

/// How far back parents stand.
#[derive(Clone, Copy, Debug)]
enum Style {
    Chain,
    Near,
    Anywhere,
    Few,
    Branches,
}

const STYLES: [Style; 5] = [Style::Chain, Style::Near, Style::Anywhere, Style::Few, Style::Branches];

fn parent(style: Style, edit: u32, random: &mut Random) -> u32 {
    let mut back = |most: u32| edit - 1 - random.below(most as u64) as u32;
    match style {
        _ if edit == 0 => NONE,
        Style::Chain => edit - 1,
        Style::Near => back(edit.min(4)),
        Style::Anywhere => back(edit),
        Style::Few if edit % 3 > 0 => NONE,
        Style::Few => back(edit),
        Style::Branches if edit < 4 => NONE,
        Style::Branches => edit - 4,
    }
}

fn graph(style: Style, edits: u32, random: &mut Random) -> Vec<Parents> {
    let some = |drawn, random: &mut Random| if random.percent(2) { NONE } else { drawn };
    (0..edits).map(|edit| [0; 2].map(|_| some(parent(style, edit, random), random))).collect()
}

#[test]
fn random_graphs_of_up_to_512_edits() {
    let (mut files, mut played, mut lengths) = (0, 0, BTreeSet::new());
    for (seed, style) in STYLES.into_iter().enumerate() {
        let mut random = Random::new(seed as u64);
        for round in 0..12 * SCALE {
            let edits = [511, 512, 6 + random.below(506) as u32][round as usize % 3];
            let graph = graph(style, edits, &mut random);
            let rests = Rests::of(&graph);
            let asked: Vec<_> = (0..40).map(|_| [0; 2].map(|_| random.below(edits as u64 + 1) as u32)).collect();
            lengths
                .extend(asked.iter().filter_map(|pair| rests.difference(pair[0], pair[1]).ok()).map(|list| list.len()));
            let words = MOST + random.below(3) as usize;
            played += same(&file(&graph), words, asked.into_iter().chain([[edits - 1, 0], [0, edits - 1]]));
            files += 1;
        }
    }
    assert!(lengths.contains(&0) && lengths.iter().any(|&length| length > 400), "{lengths:?}");
    println!("{files} random files of up to 512 edits, {played} pairs, lists of {} lengths", lengths.len());
}

/// The longest list has 511 numbers, for the second edit is never listed: one word is left of 512, two of 513; 511 are refused.
#[test]
fn areas_of_511_512_and_513_words() {
    let mut random = Random::new(5);
    let chain: Vec<Parents> = (0..512u32).map(|edit| [edit.wrapping_sub(1), NONE]).collect();
    for graph in [chain, graph(Style::Few, 512, &mut random), graph(Style::Anywhere, 40, &mut random), Vec::new()] {
        let (file, last) = (file(&graph), (graph.len() as u32).saturating_sub(1));
        for words in [0, 1, 511, 512, 513, 1_024] {
            same(&file, words, [[last, 0], [0, last], [last, last], [last, last + 1], [NONE, 0]]);
        }
    }
    // the longest list: a chain from 511 down to 1, and 0 beside it
    let beside: Vec<Parents> = (0..512u32).map(|edit| [if edit < 2 { NONE } else { edit - 1 }, NONE]).collect();
    let list: Vec<u32> = (1..512).collect();
    compared(&file(&beside), 512, [511, 0], Ok(&list)).unwrap();
}

/// The record with a byte set.
fn filled(mut record: [u8; 16], place: usize) -> [u8; 16] {
    record[place] = 1;
    record
}

/// The causes in their order: each pair of neighbours in one file, of which the first decides.
#[test]
fn every_refusal() {
    let (none, late) = (record([NONE, NONE]), record([NONE, 1]));
    let records = |records: &[[u8; 16]]| records.concat();
    let long = vec![1u8; 16 * (MOST + 1)];
    let cases: Vec<(Vec<u8>, usize, u32)> = vec![
        (long[1..].to_vec(), 0, 11),
        (records(&[none, late])[1..].to_vec(), MOST, 11),
        (long.clone(), MOST - 1, 12),
        (records(&[none, late]), MOST - 1, 12),
        (long, MOST, 16),
        (records(&[none, filled(late, 8), late]), MOST, 10),
        (records(&[none, late, filled(none, 8)]), MOST, 15),
        (records(&[none, filled(none, 15), late]), MOST, 10),
        (records(&[none, none]), MOST, 4),
        (Vec::new(), MOST, 4),
    ];
    for (file, words, number) in &cases {
        for pair in [[2, 0], [0, 2], [NONE, NONE]] {
            assert_eq!(difference(file, *words, pair[0], pair[1]), Err(*number));
            compared(file, *words, pair, Err(*number)).unwrap();
        }
        same(file, *words, []);
    }
}

/// 512 edits are not too many; every byte of the rest counts; a parent may be the edit before and not the edit itself.
#[test]
fn what_is_just_good_and_just_refused() {
    let none = record([NONE, NONE]);
    let full = none.repeat(MOST);
    same(&full, MOST, [[511, 510]]);
    assert_eq!(raw::edits_check(&full), 0);
    for place in 8..16 {
        assert_eq!(raw::edits_check(&[none, filled(none, place)].concat()), 10, "byte {place}");
    }
    for edit in [0, 1, 2, 255, 256, 511] {
        let mut full = full.clone();
        for (at, parent, number) in
            [(0, edit, 15), (4, edit, 15), (0, edit + 1, 15), (4, NONE - 1, 15), (4, edit.wrapping_sub(1), 0)]
        {
            full[16 * edit as usize + at..][..4].copy_from_slice(&parent.to_le_bytes());
            assert_eq!(raw::edits_check(&full), number, "edit {edit}, parent {parent}");
            full[16 * edit as usize + at..][..4].copy_from_slice(&NONE.to_le_bytes());
        }
    }
}

/// Bytes changed, cut off and put in; and files of random bytes.
#[test]
fn damaged_files() {
    let mut random = Random::new(9);
    let mut numbers = BTreeSet::new();
    let mut played = 0;
    for round in 0..300 * SCALE {
        let edits = 1 + random.below(if round % 10 == 0 { 512 } else { 20 }) as u32;
        let mut file = file(&graph(STYLES[round as usize % 5], edits, &mut random));
        for _ in 0..1 + random.below(3) {
            let place = random.below(file.len() as u64) as usize;
            match random.below(6) {
                0 => file.truncate(place),
                1 => file.truncate(place / 16 * 16),
                2 => file[place] = random.word() as u8,
                3 => file.insert(place, 0),
                4 => file[place] ^= 1 << random.below(8),
                _ => drop(file.drain(place / 16 * 16..((place / 16 + 1) * 16).min(file.len()))),
            }
            if file.is_empty() {
                break;
            }
        }
        let words = [511, 512, 513][random.below(3) as usize];
        numbers.insert(difference(&file, words, 0, 0).err().unwrap_or(0));
        played += same(&file, words, [[0, 0], [edits - 1, 0], [0, edits]]);
        let noise: Vec<u8> =
            (0..random.below(80)).map(|_| if random.percent(60) { 0 } else { random.word() as u8 }).collect();
        played += same(&noise, MOST, [[0, 0], [1, 0]]);
    }
    assert!([0, 4, 10, 11, 12, 15].iter().all(|number| numbers.contains(number)), "{numbers:?}");
    println!("{played} calls on damaged files");
}

/// `host/smelvock`'s own three calls, and what its refusals say.
#[test]
fn calls_of_the_host() {
    let file = file(&[[NONE, NONE], [0, NONE], [0, 0], [1, 2], [NONE, 1]]);
    assert_eq!(edits::check(&file), Ok(()));
    let mut area = [7; edits::MOST + 1];
    assert_eq!(edits::difference(&file, &mut area, 3, 4), Ok(2));
    assert_eq!(area[..3], [2, 3, 7]);
    assert_eq!(edits::listed(&file, 3, 4), Ok(vec![2, 3]));
    assert_eq!(edits::listed(&file, 2, 3), Ok(vec![]));

    let refused = |number| Refusal { number };
    assert_eq!(edits::difference(&file, &mut area[..edits::MOST - 1], 3, 4), Err(refused(12)));
    assert_eq!(edits::listed(&file, 3, 5), Err(refused(4)));
    assert_eq!(edits::check(&file[1..]), Err(refused(11)));
    assert_eq!(edits::check(&record([0, NONE])), Err(refused(15)));
    assert_eq!(edits::check(&[1; 16]), Err(refused(10)));
    assert_eq!(edits::check(&vec![1; 16 * edits::MOST + 16]), Err(refused(16)));
    assert_eq!(refused(15).to_string(), "refused by 15: a parent of an edit is not smaller than the edit");
    assert_eq!(refused(16).to_string(), "refused by 16: the file has more than 512 edits");
}

/// Another count, another number, a number more or less, and any one changed word of the list are found out.
#[test]
fn a_changed_word_is_found_out() {
    let mut random = Random::new(3);
    let edits = graph(Style::Near, 30, &mut random);
    let list = Rests::of(&edits).difference(29, 3).unwrap();
    let good = file(&edits);
    assert_eq!(compared(&good, MOST, [29, 3], Ok(&list)), Ok(()));
    assert!(list.len() > 10);
    for place in 0..list.len() {
        let mut changed = list.clone();
        changed[place] ^= 1;
        assert!(compared(&good, MOST, [29, 3], Ok(&changed)).is_err());
        changed.remove(place);
        assert!(compared(&good, MOST, [29, 3], Ok(&changed)).is_err());
    }
    assert!(compared(&good, MOST, [29, 3], Ok(&[&list[..], &[30]].concat())).is_err());
    assert!(compared(&good, MOST, [29, 3], Err(4)).is_err());
    assert!(compared(&good, MOST - 1, [29, 3], Ok(&list)).is_err());
    assert!(compared(&good, MOST, [30, 3], Err(15)).is_err());
}
