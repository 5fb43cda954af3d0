//! The audit says no for every single word that matters, and ends on words of any kind.

use oracle::audit::{audit, Verdict};
use oracle::calls::Calls;
use oracle::lined::Lined;
use oracle::random::Random;
use oracle::row::Row;
use oracle::rust::pair;
use oracle::seats::Seats;
use oracle::state::{State, EFFECT, LINES, MOST_LINES, PREPARE};
use oracle::tree::PrepareEffectTree;
use std::collections::BTreeMap;

/// A sound tree that holds exactly its limit, with a finger in the midst of a leaf. Lengths differ
/// from entry to entry and from view to view, so that no other finger has the same sums.
fn sound<const N: usize>(entries: u32, view: usize) -> State {
    grown(Lined::<N>::make(entries, [1, 7, 2]), entries, view, None)
}

/// The same for a seat, with shares that are all used.
fn sound_seated<const N: usize>(entries: u32, view: usize) -> State {
    let row = Row::seated(entries, [1, 7, 2], [0, 0, entries - 1, 0, 0, 0, 0, 0])
        .expect("they sum to one less than the limit");
    grown(Lined::<N>::beside(row), entries, view, Some(2))
}

fn grown<const N: usize>(mut tree: Lined<N>, entries: u32, view: usize, seat: Option<u32>) -> State {
    tree.seat = seat;
    for id in 1..entries {
        let before = (id % 3 != 0).then(|| tree.cursor(id * 7 % id));
        let lines = if id % 17 == 0 { MOST_LINES } else { 2 + id % 13 };
        tree.insert(before, [1 + id % 5, 3 + id % 11, lines]);
    }
    let mut index = tree.row.total(view) / 2;
    while tree.head().finger.is_none_or(|finger| finger.slot == 0) {
        tree.locate(view, index);
        index += 1;
    }
    tree.state()
}

/// Other values for a word: each single bit, its neighbours, and the ends.
fn others(word: u32) -> impl Iterator<Item = u32> {
    let bits = (0..32).map(move |bit| word ^ 1 << bit);
    bits.chain([word.wrapping_add(1), word.wrapping_sub(1), 0, u32::MAX]).filter(move |&other| other != word)
}

/// How often each verdict came.
type Verdicts = BTreeMap<String, u64>;

/// Flips the word that `pick` finds in every way; each must be refused or get a no.
fn flip(state: &mut State, what: &str, met: &mut Verdicts, pick: impl Fn(&mut State) -> &mut u32) {
    let word = *pick(state);
    for other in others(word) {
        *pick(state) = other;
        let verdict = audit(state);
        assert_ne!(verdict, Verdict::Yes, "{what}: {word} became {other}");
        *met.entry(format!("{verdict:?}")).or_default() += 1;
    }
    *pick(state) = word;
}

fn finger(state: &mut State) -> &mut oracle::state::Finger {
    state.head.finger.as_mut().expect("there is a finger")
}

fn flip_head(state: &mut State, met: &mut Verdicts) {
    flip(state, "fan", met, |state| &mut state.head.fan);
    flip(state, "limit", met, |state| &mut state.head.limit);
    flip(state, "root", met, |state| &mut state.head.root);
    flip(state, "levels", met, |state| &mut state.head.levels);
    flip(state, "entry count", met, |state| &mut state.head.entry_count);
    flip(state, "leaf count", met, |state| &mut state.head.leaf_count);
    flip(state, "inner count", met, |state| &mut state.head.inner_count);
    flip(state, "finger's view", met, |state| &mut finger(state).view);
    flip(state, "finger's leaf", met, |state| &mut finger(state).leaf);
    flip(state, "finger's start", met, |state| &mut finger(state).start);
    flip(state, "finger's effect", met, |state| &mut finger(state).effect);
    flip(state, "finger's slot", met, |state| &mut finger(state).slot);
    flip(state, "finger's within", met, |state| &mut finger(state).within);
    flip(state, "finger's effect within", met, |state| &mut finger(state).effect_within);
    flip(state, "finger's prepare", met, |state| &mut finger(state).prepare);
    flip(state, "finger's prepare within", met, |state| &mut finger(state).prepare_within);
    let seated = state.head.seats.is_some();
    for seat in (0..8).filter(|_| seated) {
        flip(state, "charge", met, |state| &mut seats(state).charges[seat]);
        // a share below its charge leaves nothing unused
        if seat != 2 {
            flip(state, "share", met, |state| &mut seats(state).shares[seat]);
        }
    }
}

fn seats(state: &mut State) -> &mut Seats {
    state.head.seats.as_mut().expect("there are seats")
}

fn flip_everything(mut state: State, met: &mut Verdicts) {
    assert_eq!(audit(&state), Verdict::Yes);
    let words = state.head.node_words();
    let (leaves, inners) = (state.head.leaf_count as usize * words, state.head.inner_count as usize * words);
    flip_head(&mut state, met);
    for at in 0..leaves {
        flip(&mut state, "leaf word", met, |state| &mut state.leaves[at]);
    }
    for at in 0..inners {
        flip(&mut state, "inner word", met, |state| &mut state.inners[at]);
    }
    for at in 0..state.head.entry_count as usize {
        flip(&mut state, "home", met, |state| &mut state.homes[at]);
    }
    state.leaves[leaves..].fill(9);
    state.inners[inners..].fill(9);
    assert_eq!(audit(&state), Verdict::Yes, "words that are not in use do not matter");
    state.homes.pop();
    assert_eq!(audit(&state), Verdict::Refused(2), "homes too short");
}

/// Both refusals and every phrase but "totals within u32" and "free entries cover all unused shares" are met; no single word
/// can bring the first about, and `outside` shows it; the second is shown below.
#[test]
fn every_flip_of_a_word_in_use_is_caught() {
    let states = [
        sound::<4>(2, PREPARE),
        sound::<4>(60, PREPARE),
        sound::<5>(60, EFFECT),
        sound::<8>(90, PREPARE),
        sound::<32>(70, EFFECT),
        sound::<4>(60, LINES),
        sound::<8>(90, LINES),
        sound_seated::<4>(60, PREPARE),
    ];
    let mut met = Verdicts::new();
    for state in states {
        let (head, before) = (state.head, met.values().sum::<u64>());
        flip_everything(state, &mut met);
        let flips = met.values().sum::<u64>() - before;
        println!("fan {}, {} entries, {} levels: {flips} flips, each caught", head.fan, head.entry_count, head.levels);
        assert!(flips > 33 * head.node_words() as u64 * (head.leaf_count + head.inner_count) as u64);
    }
    println!("{met:?}");
    assert_eq!(met.len(), 14);
}

/// Limit 12 and nine entries: three free ones cover one unused entry of seat 0 and two of seat 7.
#[test]
fn each_thing_that_is_asked_of_seats() {
    let mut tree = Lined::<4>::make(12, [1; 3]);
    (1..9).for_each(|id| assert_eq!(tree.insert(None, [1; 3]).0, id));
    let (shares, charges) = ([1, 3, 0, 0, 0, 0, 2, 2], [0, 6, 0, 0, 0, 0, 2, 0]);
    let audited = |shares, charges| {
        let mut state = tree.state();
        state.head.seats = Some(Seats { shares, charges });
        audit(&state)
    };
    assert_eq!(audited(shares, charges), Verdict::Yes);
    assert_eq!(audited([0; 8], charges), Verdict::Yes);
    assert_eq!(audited([11, 0, 0, 0, 0, 0, 0, 0], [8, 0, 0, 0, 0, 0, 0, 0]), Verdict::Yes);
    let high = Verdict::No("shares sum to at most limit - 1");
    assert_eq!(audited([12, 0, 0, 0, 0, 0, 0, 0], [8, 0, 0, 0, 0, 0, 0, 0]), high);
    assert_eq!(audited([1 << 31, 1 << 31, 0, 0, 0, 0, 0, 0], charges), high);
    let charged = Verdict::No("charges sum to the entries less one");
    assert_eq!(audited(shares, [0, 6, 0, 0, 0, 0, 2, 1]), charged);
    assert_eq!(audited(shares, [0, 5, 0, 0, 0, 0, 2, 0]), charged);
    assert_eq!(audited(shares, [u32::MAX, 9, 0, 0, 0, 0, 0, 0]), charged);
    let covered = Verdict::No("free entries cover all unused shares");
    assert_eq!(audited([1, 3, 0, 0, 0, 0, 2, 3], charges), covered);
    assert_eq!(audited([1, 3, 1, 0, 0, 0, 2, 2], charges), covered);
    assert_eq!(audited(shares, [0, 7, 0, 0, 0, 0, 1, 0]), covered);
    assert_eq!(audited([0, 0, 0, 0, 0, 0, 0, 4], charges), covered);
}

/// The stamp of a head is of no account.
#[test]
fn any_stamp_is_sound() {
    let mut state = sound::<4>(60, PREPARE);
    for stamp in [0, 1, 59, 61, 1 << 32, u64::MAX] {
        state.head.stamp = stamp;
        assert_eq!(audit(&state), Verdict::Yes, "{stamp}");
    }
}

/// One line end more than an entry may have is unsound, although every sum above it is right; 65,535 isn't.
#[test]
fn more_than_65535_line_ends_in_a_leaf_slot_are_unsound() {
    for lines in [0, 1, MOST_LINES - 1, MOST_LINES, MOST_LINES + 1, 2 * MOST_LINES, u32::MAX] {
        // a first leaf of one entry, and the root's slot for it
        let mut state = Lined::<4>::make(5, [3, 3, 7]).state();
        (state.leaves[6], state.inners[6]) = (lines, lines);
        let wanted = if lines > MOST_LINES { Verdict::No("at most 65,535 line ends") } else { Verdict::Yes };
        assert_eq!(audit(&state), wanted, "{lines}");
    }
}

/// Several words at once, with counts, links and lens that lead anywhere: the audit ends and does not panic.
#[test]
fn the_audit_ends_on_any_words() {
    let mut random = Random::new(1);
    let (mut yes, mut no) = (0, 0);
    for _ in 0..20_000 {
        let mut state = sound::<4>(40, PREPARE);
        for _ in 0..1 + random.below(6) {
            let value = [0, 1, 2, 4, 19, u32::MAX, random.word() as u32][random.below(7) as usize];
            let areas = [&mut state.leaves, &mut state.inners, &mut state.homes];
            let area = random.below(3) as usize;
            let at = random.below(areas[area].len() as u64) as usize;
            areas[area][at] = value;
        }
        if random.percent(20) {
            (state.head.levels, state.head.root) = (random.below(16) as u32, random.below(20) as u32);
        }
        match audit(&state) {
            Verdict::Yes => yes += 1,
            _ => no += 1,
        }
    }
    println!("{no} damaged trees refused, {yes} still sound");
    assert_eq!(yes + no, 20_000);
    assert!(no > 15_000);
}

/// Every inner node names itself or the root in every slot: the lists of a level could grow without end.
#[test]
fn the_audit_ends_on_circles() {
    let mut tree = PrepareEffectTree::<32>::new(pair([1, 1]));
    (1..65_536).for_each(|id| assert_eq!(tree.insert(None, pair([1, 1])).0, id));
    for levels in 1..=15 {
        let mut state = tree.state(65_536, &[]);
        state.head.levels = levels;
        state.inners.fill(0);
        for node in state.inners.chunks_exact_mut(131) {
            node[0] = 32;
        }
        assert_ne!(audit(&state), Verdict::Yes);
    }
}
