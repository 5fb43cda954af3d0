//! Kinds of damage, each with what repair must make of it.

use super::sites::{Site, Sites, HEAD, INNER, LEAF};
use super::FINGER;
use crate::damage::word;
use crate::exports::{Area, Tree};
use oracle::random::Random;
use oracle::state::{node_words, MOST_LINES, NONE};
use smelvock::raw::word::{CHARGES, ENTRIES, FAN, INNERS, LEAVES, LEVELS, LIMIT, PRESENT, ROOT, SEATED, SHARES, STAMP};

/// A sound tree, to be damaged.
pub struct Case<'a> {
    pub tree: Tree,
    pub sites: &'a Sites,
    pub random: &'a mut Random,
}

/// What repair answers.
#[derive(Clone, Copy, PartialEq, Eq, Debug)]
pub enum Wanted {
    /// Put right, with so many words that differ: none, some.
    None,
    Some,
    /// By that number.
    Refused(u32),
    /// Whatever oracle's repair says.
    Any,
}

/// Says whether the tree has the place for it.
type Damage = fn(&mut Case<'_>) -> bool;

impl Case<'_> {
    fn below(&mut self, end: usize) -> usize {
        self.random.below(end as u64) as usize
    }

    fn one(&mut self, sites: &[Site]) -> Option<Site> {
        (!sites.is_empty()).then(|| sites[self.below(sites.len())])
    }

    pub fn put(&mut self, (area, at): Site, value: u32) {
        *word(&mut self.tree, area, at) = value;
    }

    fn get(&mut self, (area, at): Site) -> u32 {
        *word(&mut self.tree, area, at)
    }

    /// Another value than the word has: a neighbour, an end, a small one, any.
    pub fn change(&mut self, site: Site) {
        let old = self.get(site);
        let small = self.below(40) as u32;
        let values = [
            old ^ 1,
            old.wrapping_add(1),
            old.wrapping_sub(1),
            0,
            NONE,
            small,
            self.random.word() as u32,
            old ^ 1 << 31,
        ];
        let value = values[self.below(values.len())];
        self.put(site, if value == old { old ^ 1 } else { value });
    }

    fn change_one(&mut self, sites: &[Site]) -> bool {
        self.one(sites).map(|site| self.change(site)).is_some()
    }

    fn put_one(&mut self, sites: &[Site], value: u32) -> bool {
        self.one(sites).map(|site| self.put(site, value)).is_some()
    }

    fn head(&mut self, at: usize, value: u32) -> bool {
        let other = self.tree.word(at) != value;
        self.put((HEAD, at), value);
        other
    }

    fn swap(&mut self, one: Site, other: Site) -> bool {
        let [a, b] = [one, other].map(|site| self.get(site));
        self.put(one, b);
        self.put(other, a);
        a != b
    }

    fn swap_two(&mut self, sites: &[Site]) -> bool {
        let two = self.one(sites).zip(self.one(sites));
        two.is_some_and(|(one, other)| self.swap(one, other))
    }

    /// The root and the nodes below it, level by level, by the child numbers in use.
    fn levels(&mut self) -> Vec<Vec<u32>> {
        let size = node_words(self.tree.word(FAN));
        let mut levels = vec![vec![self.tree.word(ROOT)]];
        for level in 0..self.tree.word(LEVELS) as usize {
            let inners = self.tree.inners.words();
            let children = |&node: &u32| {
                let words = &inners[node as usize * size..][..size];
                words[3..].chunks_exact(4).take(words[0] as usize).map(|slot| slot[0]).collect::<Vec<_>>()
            };
            let next = levels[level].iter().flat_map(children).collect();
            levels.push(next);
        }
        levels
    }

    /// A slot in use of an inner node of a level, the root's being 0.
    fn child_of(&mut self, level: usize) -> Site {
        let size = node_words(self.tree.word(FAN));
        let levels = self.levels();
        let start = levels[level][self.below(levels[level].len())] as usize * size;
        let len = self.tree.inners.words()[start] as usize;
        (INNER, start + 3 + 4 * self.below(len))
    }
}

pub const KINDS: [(&str, Wanted, Damage); 56] = [
    // what is rewritten
    ("a sum", Wanted::Some, |case| case.change_one(&case.sites.sums)),
    ("a parent", Wanted::Some, |case| case.change_one(&case.sites.parents)),
    ("a place", Wanted::Some, |case| case.change_one(&case.sites.places)),
    ("a home", Wanted::Some, |case| case.change_one(&case.sites.homes)),
    ("an unused slot", Wanted::Some, |case| case.change_one(&case.sites.unused)),
    ("every word that isn't trusted", Wanted::Some, every_rewritten),
    ("every word that isn't trusted 0", Wanted::Some, |case| {
        case.sites.rewritten().for_each(|site| case.put(site, 0));
        true
    }),
    ("a finger's words", Wanted::None, |case| {
        FINGER.skip(1).for_each(|at| case.change((HEAD, at)));
        case.head(PRESENT, 1);
        true
    }),
    ("a flag of the finger that is neither 0 nor 1", Wanted::None, |case| {
        let flag = [2, 3, 1 << 31, NONE][case.below(4)];
        case.head(PRESENT, flag)
    }),
    ("no finger, and words of one", Wanted::None, |case| {
        FINGER.skip(1).for_each(|at| case.change((HEAD, at)));
        case.head(PRESENT, 0)
    }),
    // what is neither
    ("nothing", Wanted::None, |_| true),
    ("a word out of use", Wanted::None, |case| case.change_one(&case.sites.idle)),
    ("every word out of use", Wanted::None, |case| {
        case.sites.idle.iter().for_each(|&site| case.change(site));
        true
    }),
    ("the seats' words in a tree without seats", Wanted::None, |case| {
        (SHARES..36).for_each(|at| case.change((HEAD, at)));
        case.tree.word(SEATED) == 0
    }),
    // trusted words that a sound tree has
    ("the stamp", Wanted::None, |case| {
        [STAMP, STAMP + 1].into_iter().for_each(|at| case.change((HEAD, at)));
        true
    }),
    ("a length", Wanted::Some, |case| {
        let site = case.one(&case.sites.lengths).expect("an entry");
        let more = 1 + case.below(1_000) as u32;
        let length = case.get(site) + more;
        case.put(site, length);
        true
    }),
    ("65,535 line ends", Wanted::Some, |case| case.put_one(&case.sites.lines, MOST_LINES)),
    ("two children of a node", Wanted::Some, |case| {
        let level = case.below(case.tree.word(LEVELS) as usize);
        let one = case.child_of(level);
        let start = one.1 / node_words(case.tree.word(FAN)) * node_words(case.tree.word(FAN));
        let other = (INNER, start + 3 + 4 * case.below(case.tree.inners.words()[start] as usize));
        case.swap(one, other)
    }),
    ("two children of a level", Wanted::Some, |case| {
        let level = case.below(case.tree.word(LEVELS) as usize);
        let (one, other) = (case.child_of(level), case.child_of(level));
        case.swap(one, other)
    }),
    // two entries of one leaf have the same home before and after
    ("two ids", Wanted::Any, |case| case.swap_two(&case.sites.ids)),
    ("two leaves by each other's number", Wanted::Some, two_leaves),
    ("a charge to another seat", Wanted::Any, |case| {
        let (from, to) = (CHARGES + case.below(8), CHARGES + case.below(8));
        let [charge, other] = [from, to].map(|at| case.tree.word(at));
        case.tree.word(SEATED) == 1 && charge > 0 && case.head(from, charge - 1) && case.head(to, other + 1)
    }),
    ("another share", Wanted::Any, |case| {
        let at = SHARES + case.below(8);
        case.change((HEAD, at));
        case.tree.word(SEATED) == 1
    }),
    ("another limit", Wanted::Any, |case| {
        let limit = case.tree.word(LIMIT);
        let other = limit + case.below(6) as u32 - 3.min(limit - 1);
        case.head(LIMIT, other)
    }),
    // trusted words that no sound tree has
    ("no levels", Wanted::Refused(21), |case| case.head(LEVELS, 0)),
    ("a level more", Wanted::Refused(21), |case| case.head(LEVELS, case.tree.word(LEVELS) + 1)),
    ("a level less", Wanted::Refused(21), |case| case.head(LEVELS, case.tree.word(LEVELS) - 1)),
    ("sixteen levels", Wanted::Refused(21), |case| case.head(LEVELS, 16)),
    ("2^32 - 1 levels", Wanted::Refused(21), |case| case.head(LEVELS, NONE)),
    ("the root out of use", Wanted::Refused(21), |case| case.head(ROOT, case.tree.word(INNERS))),
    ("the root outside", Wanted::Refused(21), |case| case.head(ROOT, NONE)),
    ("another root", Wanted::Refused(21), |case| {
        let other = case.below(case.tree.word(INNERS) as usize) as u32;
        case.head(ROOT, other)
    }),
    ("a count one more", Wanted::Refused(21), |case| {
        let at = [LEAVES, INNERS, ENTRIES][case.below(3)];
        case.head(at, case.tree.word(at) + 1)
    }),
    ("a count one less", Wanted::Refused(21), |case| {
        let at = [LEAVES, INNERS, ENTRIES][case.below(3)];
        case.head(at, case.tree.word(at) - 1)
    }),
    ("a count of 0", Wanted::Refused(21), |case| {
        let at = [LEAVES, INNERS, ENTRIES][case.below(3)];
        case.head(at, 0)
    }),
    ("a count past the limit", Wanted::Refused(21), |case| {
        let at = [LEAVES, INNERS, ENTRIES][case.below(3)];
        let value = [case.tree.word(LIMIT) + 1, 65_537, 1 << 31, NONE][case.below(4)];
        case.head(at, value)
    }),
    ("a len of 0", Wanted::Refused(21), |case| case.put_one(&case.sites.lens, 0)),
    ("a len above the fan", Wanted::Refused(21), |case| {
        let len = [case.tree.word(FAN) + 1, 1 << 16, NONE][case.below(3)];
        case.put_one(&case.sites.lens, len)
    }),
    ("a len one less", Wanted::Refused(21), |case| {
        let site = case.one(&case.sites.lens).expect("a node");
        let len = case.get(site);
        case.put(site, len - 1);
        true
    }),
    ("a len one more", Wanted::Refused(21), |case| {
        let site = case.one(&case.sites.lens).expect("a node");
        let len = case.get(site);
        case.put(site, len + 1);
        true
    }),
    ("a leaf out of use for a child", Wanted::Refused(21), |case| {
        let site = case.child_of(case.tree.word(LEVELS) as usize - 1);
        let child = [case.tree.word(LEAVES), 1 << 20, 1 << 31, NONE][case.below(4)];
        case.put(site, child);
        true
    }),
    ("an inner node out of use for a child", Wanted::Refused(21), |case| {
        let levels = case.tree.word(LEVELS) as usize;
        let level = case.below(levels.max(2) - 1);
        let (site, child) = (case.child_of(level), [case.tree.word(INNERS), 1 << 20, 1 << 31, NONE][case.below(4)]);
        case.put(site, child);
        levels > 1
    }),
    ("a node twice at one depth", Wanted::Refused(21), |case| {
        let level = case.below(case.tree.word(LEVELS) as usize);
        let (one, other) = (case.child_of(level), case.child_of(level));
        let [child, there] = [one, other].map(|site| case.get(site));
        case.put(other, child);
        child != there
    }),
    ("a node at two depths", Wanted::Refused(21), at_two_depths),
    ("an id past the entries", Wanted::Refused(21), |case| {
        let id = [case.tree.word(ENTRIES), 1 << 16, NONE][case.below(3)];
        case.put_one(&case.sites.ids, id)
    }),
    ("an id twice", Wanted::Refused(21), |case| {
        let two = case.one(&case.sites.ids).zip(case.one(&case.sites.ids));
        two.is_some_and(|(one, other)| {
            let id = case.get(one);
            case.put(other, id);
            one != other
        })
    }),
    ("65,536 line ends", Wanted::Refused(21), |case| case.put_one(&case.sites.lines, MOST_LINES + 1)),
    ("more line ends", Wanted::Refused(21), |case| {
        let lines = [MOST_LINES + 2, 1 << 17, 1 << 31, NONE][case.below(4)];
        case.put_one(&case.sites.lines, lines)
    }),
    ("a total past 4,294,967,295", Wanted::Refused(21), |case| {
        // entries have a prepare and an effect length of at least 1
        case.put_one(&case.sites.lengths, NONE);
        case.tree.word(ENTRIES) > 1
    }),
    ("two lengths that sum to 2^32", Wanted::Refused(21), |case| {
        let two = case.one(&case.sites.lengths).zip(case.one(&case.sites.lengths)).expect("an entry");
        [two.0, two.1].into_iter().for_each(|site| case.put(site, 1 << 31));
        let size = node_words(case.tree.word(FAN));
        two.0 != two.1 && (two.0 .1 % size) % 4 == (two.1 .1 % size) % 4
    }),
    ("a charge more", Wanted::Refused(21), |case| {
        let at = CHARGES + case.below(8);
        let more = [1, 2, 1 << 16][case.below(3)];
        case.head(at, case.tree.word(at) + more);
        case.tree.word(SEATED) == 1
    }),
    ("shares that sum to the limit", Wanted::Refused(21), |case| {
        let shares: u32 = (SHARES..CHARGES).map(|at| case.tree.word(at)).sum();
        let at = SHARES + case.below(8);
        case.head(at, case.tree.word(at) + case.tree.word(LIMIT) - shares);
        case.tree.word(SEATED) == 1
    }),
    ("a share that the free entries don't cover", Wanted::Refused(21), |case| {
        let unused = |at: usize| case.tree.word(at).saturating_sub(case.tree.word(at + CHARGES - SHARES));
        let covered: u32 = (SHARES..CHARGES).map(unused).sum();
        let free = case.tree.word(LIMIT) - case.tree.word(ENTRIES);
        case.head(SHARES, case.tree.word(SHARES) + free - covered + 1);
        case.tree.word(SEATED) == 1
    }),
    ("both at once", Wanted::Refused(21), |case| {
        every_rewritten(case);
        case.put_one(&case.sites.ids, NONE)
    }),
    // refused before 21
    ("an area too short, and an id past the entries", Wanted::Refused(2), |case| {
        case.put_one(&case.sites.ids, NONE);
        let short = |area: &Area| Area::new(&area.words()[..area.words().len() - 6]);
        let Tree { leaves, inners, homes, .. } = &mut case.tree;
        let area = [leaves, inners, homes].into_iter().nth(case.random.below(3) as usize).expect("three");
        *area = short(area);
        case.tree.word(ENTRIES) > 3 && case.tree.word(ENTRIES) < 100
    }),
    ("a fan of 3, and an id past the entries", Wanted::Refused(1), |case| {
        case.put_one(&case.sites.ids, NONE);
        case.head(FAN, 3)
    }),
];

fn every_rewritten(case: &mut Case<'_>) -> bool {
    case.sites.rewritten().for_each(|site| case.change(site));
    true
}

/// Every word of two leaves goes to the other's place, and each is named by the other's number: parents and places stand, homes don't.
fn two_leaves(case: &mut Case<'_>) -> bool {
    let size = node_words(case.tree.word(FAN));
    let leaves = case.tree.word(LEAVES) as usize;
    let (one, other) = (case.below(leaves), case.below(leaves));
    (0..size).for_each(|word| _ = case.swap((LEAF, one * size + word), (LEAF, other * size + word)));
    let lowest = case.levels()[case.tree.word(LEVELS) as usize - 1].clone();
    for start in lowest.into_iter().map(|node| node as usize * size) {
        for at in (0..case.tree.inners.words()[start] as usize).map(|slot| start + 3 + 4 * slot) {
            let child = case.get((INNER, at)) as usize;
            let renamed = if child == one {
                other
            } else if child == other {
                one
            } else {
                child
            };
            case.put((INNER, at), renamed as u32);
        }
    }
    one != other
}

/// A child of an inner node is one of a level further up, its own parent or the root among them.
fn at_two_depths(case: &mut Case<'_>) -> bool {
    let levels = case.levels();
    if levels.len() < 3 {
        return false;
    }
    let level = case.below(levels.len() - 2);
    let above = &levels[case.below(level + 1)];
    let (site, node) = (case.child_of(level), above[case.below(above.len())]);
    case.put(site, node);
    true
}
