//! Each refusal has a name that a caller compares with and matches on.

use smelvock::{raw, Cursor, Lengths, PrepareEffectTree, Refusal};
use std::collections::HashSet;
use std::error::Error;

/// The names in the order of their numbers, from 1.
const NAMED: [Refusal; 21] = [
    Refusal::SIZE,
    Refusal::AREA,
    Refusal::STAMP,
    Refusal::ID,
    Refusal::POSITION,
    Refusal::SPLIT,
    Refusal::TOTAL,
    Refusal::FULL,
    Refusal::LINK,
    Refusal::FIELD,
    Refusal::RECORDS,
    Refusal::BUFFER,
    Refusal::LEAF,
    Refusal::SLOT,
    Refusal::PARENT,
    Refusal::EDITS,
    Refusal::HOLLOW,
    Refusal::OVER,
    Refusal::SHARES,
    Refusal::BOUNDS,
    Refusal::UNSOUND,
];

#[test]
fn the_names_are_those_of_1_to_21() {
    assert_eq!(NAMED.map(|refusal| refusal.number).as_slice(), (1..=21).collect::<Vec<_>>());
    let texts = NAMED.map(|refusal| refusal.to_string());
    assert!((1..).zip(&texts).all(|(number, text)| text.starts_with(&format!("refused by {number}: "))));
    assert_eq!(Refusal::STAMP.to_string(), "refused by 3: the cursor's stamp is not the present one");
    assert_eq!(Refusal::HOLLOW.to_string(), "refused by 17: the split moves nothing, or leaves nothing behind");
    assert_eq!(Refusal::SHARES.to_string(), "refused by 19: the shares sum to the limit or more");
    assert_eq!(
        Refusal::BOUNDS.to_string(),
        "refused by 20: a lowest length is above the highest, given or left by a split"
    );
    assert_eq!(
        Refusal::UNSOUND.to_string(),
        "refused by 21: no sound tree has the head, lens, child numbers and lengths that repair trusts"
    );
    assert_eq!(Refusal { number: 99 }.to_string(), "refused by 99: no call answers this number");
}

/// A refusal is an error like any other, and no two numbers have one text.
#[test]
fn every_number_has_a_text_of_its_own() {
    let texts = NAMED.map(|refusal| Box::<dyn Error>::from(refusal).to_string());
    let causes = texts.iter().map(|text| text.split_once(": ").expect("number and cause").1).collect::<HashSet<_>>();
    assert_eq!(causes.len(), NAMED.len());
    let unknown = Refusal { number: NAMED.len() as u32 + 1 }.to_string();
    assert!(!causes.contains(unknown.split_once(": ").expect("number and cause").1), "{causes:?}");
}

/// What an editor does with the three numbers of a cursor.
fn advice(refusal: Refusal) -> &'static str {
    match refusal {
        Refusal::STAMP => "outdated: ask for it anew",
        Refusal::LEAF | Refusal::SLOT => "mangled",
        _ => "something else",
    }
}

#[test]
fn an_outdated_cursor_is_told_from_a_mangled_one() {
    let lengths = Lengths { prepare: 1, effect: 1, lines: 0 };
    let mut tree = PrepareEffectTree::<4>::with_limit(5, lengths).unwrap();
    let old = tree.first().unwrap();
    tree.insert(None, lengths).unwrap();
    let now = raw::Cursor::from(tree.first().unwrap());
    let advised = |at: raw::Cursor| tree.id(Cursor::from(at)).map_err(advice);
    assert_eq!(advised(now), Ok(0));
    assert_eq!(advised(old.into()), Err("outdated: ask for it anew"));
    assert_eq!(advised(raw::Cursor { leaf: 1, ..now }), Err("mangled"));
    assert_eq!(advised(raw::Cursor { slot: 2, ..now }), Err("mangled"));
    assert_eq!(tree.cursor(2).map_err(advice), Err("something else"));
}
