//! Runs of a repair beside oracle's.

use super::kinds::{Case, Wanted, KINDS};
use super::sites::Sites;
use super::{compare, Met, Repairs};
use crate::damage::{change_some, flip_every_word, randomize};
use crate::exports::{Export, Given, Tree};
use oracle::driver::Parted;
use oracle::random::Random;
use std::collections::BTreeSet;

/// The names of kinds of damage.
pub type Names = BTreeSet<&'static str>;

/// Every kind of damage that the tree has a place for, so many times each; says which these were.
pub fn every_kind(repairs: Repairs, tree: &Tree, times: u32, seed: u64, met: &mut Met) -> Result<Names, Parted> {
    let (sites, mut random) = (Sites::of(tree), Random::new(seed));
    let mut names = Names::new();
    for (name, wanted, damage) in KINDS {
        let mut played = 0;
        for _ in 0..3 * times {
            if played == times {
                break;
            }
            let mut case = Case { tree: tree.clone(), sites: &sites, random: &mut random };
            if damage(&mut case) {
                one_case(repairs, &case.tree, wanted, met).map_err(|parted| format!("{name}: {parted}"))?;
                names.insert(name);
                played += 1;
            }
        }
    }
    Ok(names)
}

/// The answer is that of the kind; where words that aren't trusted were damaged, audit said no before.
fn one_case(repairs: Repairs, tree: &Tree, wanted: Wanted, met: &mut Met) -> Result<(), Parted> {
    let answer = compare(repairs, tree, met)?;
    let as_wanted = match wanted {
        Wanted::None => answer.number == 0 && answer.values == [0],
        Wanted::Some => answer.number == 0 && answer.values != [0] && audit(tree) == [0, 0],
        Wanted::Refused(number) => answer.number == number,
        Wanted::Any => true,
    };
    if as_wanted {
        Ok(())
    } else {
        Err(format!("{answer:?} isn't {wanted:?}"))
    }
}

fn audit(tree: &Tree) -> [u32; 2] {
    let answer = Export::Audit.play(&mut tree.clone(), &Given::default());
    [answer.number, answer.values[0]]
}

/// Every word of head and areas, one at a time, each with other values.
pub fn every_flip(repairs: Repairs, tree: Tree, met: &mut Met) -> Result<u64, Parted> {
    let mut parted = Ok(());
    let flips = flip_every_word(tree, |tree| {
        if parted.is_ok() {
            parted = compare(repairs, tree, met).map(|_| ());
        }
    });
    parted.map(|()| flips)
}

/// Some words of trees, then all of the areas', drawn at random, so many times each.
pub fn random(repairs: Repairs, trees: &[Tree], times: u64, seed: u64, met: &mut Met) -> Result<(), Parted> {
    let mut random = Random::new(seed);
    for damage in [change_some, randomize] {
        for _ in 0..times {
            let mut tree = trees[random.below(trees.len() as u64) as usize].clone();
            damage(&mut tree, &mut random);
            compare(repairs, &tree, met)?;
        }
    }
    Ok(())
}
