//! Random histories merged on the proved tree and on lib.rs's, at several fans, and without a tree; in other orders; and in the versions
//! that authors saw.

use histories::plain::Plain;
use histories::{history, listed, reordered};
use merge::tree::Tree;
use merge::{example, merge, Change, Edit, Merged};
use oracle::random::Random;
use oracle::tree as lib_rs;
use smelvock::edits::NONE;
use smelvock::{PrepareEffectTree, Refusal};
use std::fs;

fn merged<T: Tree>(sheet: &str, edits: &[Edit]) -> Merged {
    merge::<T>(sheet, edits).expect("the history is a good one")
}

/// The merge on every tree: the same sheet, and the same position of every edit.
fn on_every_tree(sheet: &str, edits: &[Edit]) -> Merged {
    let on_port = merged::<PrepareEffectTree<4>>(sheet, edits);
    assert_eq!(on_port, merged::<PrepareEffectTree<5>>(sheet, edits));
    assert_eq!(on_port, merged::<PrepareEffectTree<32>>(sheet, edits));
    assert_eq!(on_port, merged::<lib_rs::PrepareEffectTree<4>>(sheet, edits));
    assert_eq!(on_port, merged::<lib_rs::PrepareEffectTree<32>>(sheet, edits));
    on_port
}

/// A change as its author saw it.
fn changed(sheet: &str, change: &Change) -> String {
    let mut chars: Vec<char> = sheet.chars().collect();
    match change {
        Change::Insert { at, text } => _ = chars.splice(*at as usize..*at as usize, text.chars()),
        Change::Delete { at, count } => _ = chars.drain(*at as usize..(at + count) as usize),
    }
    chars.into_iter().collect()
}

/// Holds one history against the plain merge, against two other orders of its edits, and of one edit against what its author saw.
fn holds(random: &mut Random, sheet: &str, edits: &[Edit]) {
    let plain = Plain::of(sheet, edits);
    assert_eq!(on_every_tree(sheet, edits).sheet, plain.merged(), "{sheet:?}, {edits:?}");
    for _ in 0..2 {
        let other = reordered(random, edits);
        assert_eq!(merged::<PrepareEffectTree<4>>(sheet, &other).sheet, plain.merged(), "{sheet:?}, {other:?}");
    }
    let edit = random.below(edits.len() as u64) as usize;
    let (before, after) = (plain.version(edits[edit].parents), &plain.rests[edit]);
    assert_eq!(plain.text(after), changed(&plain.text(&before), &edits[edit].change), "{sheet:?}, {edits:?}");
    let rested: Vec<u32> = after.iter().copied().collect();
    assert_eq!(merged::<PrepareEffectTree<8>>(sheet, &listed(edits, &rested)).sheet, plain.text(after));
}

/// A row of histories of one kind.
fn run(histories: u64, departments: u64, edits: usize) {
    let mut apart = 0;
    for seed in 0..histories {
        let mut random = Random::new(seed * 1_000 + edits as u64);
        let (sheet, edits) = history(&mut random, departments, edits);
        holds(&mut random, &sheet, &edits);
        apart += (Plain::of(&sheet, &edits).rests.last().is_some_and(|rests| rests.len() < edits.len())) as u64;
    }
    println!("{histories} histories of {edits} edits by {departments} departments, {apart} with edits that the last doesn't rest on");
    assert!(apart > histories / 2);
}

#[test]
fn random_histories_give_one_sheet() {
    run(2_000, 2, 6);
    run(2_000, 2, 12);
    run(1_000, 3, 25);
    run(200, 4, 60);
    run(5, 8, 512);
}

/// README has the merge log and the sheet that the program prints; lib.rs's tree gives the same.
#[test]
fn readme_has_the_merged_sheet() {
    let told = example::told::<PrepareEffectTree<8>>().expect("the history is a good one");
    assert_eq!(Ok(&told), example::told::<lib_rs::PrepareEffectTree<8>>().as_ref());
    assert_eq!(
        Plain::of(example::SHEET, &example::edits()).merged(),
        on_every_tree(example::SHEET, &example::edits()).sheet
    );
    assert!(include_str!("../../../README.md").contains(&told), "README hasn't\n{told}");
}

/// Short enough to be read and taken over.
#[test]
fn the_example_has_at_most_400_lines() {
    let files = fs::read_dir(concat!(env!("CARGO_MANIFEST_DIR"), "/src")).expect("the folder is there");
    let lines = files.map(|file| fs::read_to_string(file.unwrap().path()).expect("a file").lines().count());
    assert!((1..=400).contains(&lines.sum::<usize>()));
}

#[test]
fn wrong_histories_are_refused() {
    let edit = |parents, at| Edit { department: 'A', parents, change: Change::Delete { at, count: 1 } };
    let on_port = |edits: &[Edit]| merge::<PrepareEffectTree<8>>("row\n", edits).map(|merged| merged.sheet);
    assert_eq!(on_port(&[edit([NONE, NONE], 3)]), Ok("row".to_owned()));
    assert_eq!(on_port(&[edit([NONE, NONE], 4)]), Err(Refusal::POSITION));
    assert_eq!(on_port(&[edit([NONE, 0], 0)]), Err(Refusal::PARENT));
    let long: Vec<Edit> = (0..513).map(|number: u32| edit([number.checked_sub(1).unwrap_or(NONE), NONE], 0)).collect();
    assert_eq!(on_port(&long), Err(Refusal::EDITS));
}

#[test]
#[should_panic(expected = "edit 1 doesn't rest on its department's last")]
fn a_department_knows_its_own_edits() {
    let edit = |text: &str| Edit {
        department: 'A',
        parents: [NONE, NONE],
        change: Change::Insert { at: 0, text: text.to_owned() },
    };
    _ = merge::<PrepareEffectTree<8>>("", &[edit("x"), edit("y")]);
}
