//! Trees with seats beside the row with charges, which is written from document 02, and beside lib.rs, which plays what isn't refused:
//! every answer, every share and charge, every word of head and areas. A seat below its share is never refused for space, whoever
//! called before.

use beside::any_cursor::{Beside, List, Style};
use beside::exports::{Export, Given, Tree};
use beside::met::{Met, Thing};
use beside::plays::Plays;
use beside::port::three;
use beside::seated::Seated;
use beside::words::{on_zeros, seated};
use oracle::at_fan;
use oracle::fans::FANS;
use oracle::lists::{with_resets, Lister, Sizes, Style as Drawn, GROWING};
use oracle::random::Random;
use oracle::record::Call;
use oracle::row::Row;
use oracle::state::NONE;
use smelvock::raw::word::{CHARGES, SEATED, SHARES};
use smelvock::PrepareEffectTree;

const SCALE: u64 = if cfg!(debug_assertions) { 1 } else { 4 };
const CALLS: u64 = 5_000;

/// Limits and shares: some kept for seats that call seldom, all given away, none, and all to one seat.
const PLANS: [(u32, [u32; 8]); 4] = [
    (120, [20, 10, 0, 30, 0, 0, 5, 4]),
    (60, [10, 19, 9, 8, 7, 3, 2, 1]),
    (40, [0; 8]),
    (90, [0, 0, 0, 0, 0, 0, 0, 89]),
];

const FIRST: [u32; 3] = [2, 1, 1];

fn row(limit: u32, lengths: [u32; 3], shares: [u32; 8]) -> Row {
    Row::seated(limit, lengths, shares).expect("the shares sum to less than the limit")
}

fn by_cursor<const N: usize, P: Plays>((limit, shares): (u32, [u32; 8]), make: fn(&PrepareEffectTree<N>) -> P) -> Met {
    let mut met = Met::default();
    for seed in 0..SCALE {
        let style = Style { name: "seated", limit, reset_every: 700 };
        let port = make(&seated(limit, FIRST, shares));
        let mut list =
            List::new(Beside::<N, P>::seated(port, row(limit, FIRST, shares)), style, seed * 64 + N as u64, 1);
        list.play(CALLS).unwrap();
        met += &list.met;
    }
    met
}

/// Calls on cursors of which some are old or mangled, for seats of which some aren't there: on the exports and on `host/smelvock`.
#[test]
fn random_lists_by_cursor() {
    for plan in PLANS {
        let mut met = Met::default();
        for fan in FANS {
            at_fan!(fan, N => [by_cursor::<N, _>(plan, Tree::of), by_cursor::<N, _>(plan, Clone::clone)])
                .iter()
                .for_each(|of_one| met += of_one);
        }
        println!("{plan:?}: {met}");
        for (export, number) in [Export::Insert, Export::SplitEntry]
            .into_iter()
            .flat_map(|export| [0, 3, 10, 18].map(|number| (export, number)))
        {
            assert!(met.of(Thing::Taking(export, number)) > 0, "{plan:?}, {export:?}, {number}");
        }
        assert!(met.of(Thing::Other(Export::Insert, 18)) > 0 && met.of(Thing::Other(Export::Reset, 0)) > 0);
        assert!([Export::Insert, Export::SplitEntry].iter().all(|&export| met.of(Thing::Taking(export, 8)) == 0));
        assert_eq!(met.of(Thing::Other(Export::Insert, 8)), 0);
    }
}

/// Whose call the next is: mostly that of a few seats, seldom of none or of one that isn't there.
fn whose(random: &mut Random) -> Option<u32> {
    match random.below(60) {
        0 => None,
        1 => Some([8, 9, 255, u32::MAX - 1][random.below(4) as usize]),
        2..=20 => Some(random.below(8) as u32),
        _ => Some(random.below(2) as u32),
    }
}

/// How often each number was answered, and entries made for a seat below its share and for one that isn't.
#[derive(Default, Debug)]
struct Counts {
    numbers: [u64; 20],
    below: u64,
    over: u64,
}

fn by_id<const N: usize>((limit, shares): (u32, [u32; 8]), counts: &mut Counts) {
    let mut list = Seated::<N, Tree>::new(Tree::of(&seated::<N>(limit, FIRST, shares)), row(limit, FIRST, shares));
    let style = Drawn { weights: with_resets(GROWING), sizes: Sizes::Small, close: 50, miss: 6 };
    let (mut lister, mut random) = (Lister::new(N as u64, style), Random::new(limit as u64));
    for _ in 0..SCALE * CALLS / 2 {
        let (seat, Some(call)) = (whose(&mut random), lister.draw(&list.row).call()) else { continue };
        let before = list.row.seats.unwrap();
        let number = list.play(seat, call).unwrap();
        counts.numbers[number as usize] += 1;
        if list.row.seats.unwrap().charges.iter().sum::<u32>() > before.charges.iter().sum() {
            let below = before.below(seat.unwrap() as usize);
            *(if below { &mut counts.below } else { &mut counts.over }) += 1;
        }
    }
}

#[test]
fn random_lists_by_id() {
    for plan in PLANS {
        let mut counts = Counts::default();
        FANS.into_iter().for_each(|fan| at_fan!(fan, N => by_id::<N>(plan, &mut counts)));
        println!("{plan:?}: {counts:?}");
        assert!([0, 4, 5, 6, 10, 17, 18].iter().all(|&number| counts.numbers[number] > 0) && counts.numbers[8] == 0);
        let (limit, given_away) = (plan.0, plan.1.iter().sum::<u32>());
        assert_eq!([counts.below > 0, counts.over > 0], [given_away > 0, given_away < limit - 1]);
    }
}

/// Ways to make one entry more.
#[derive(Clone, Copy, Debug)]
enum Way {
    AtEnd,
    Before,
    Split,
}

const WAYS: [Way; 3] = [Way::AtEnd, Way::Before, Way::Split];

/// A first entry that can be split as often as any tree here has entries.
const LONG: [u32; 3] = [1_000, 0, 0];

impl Way {
    fn call(self) -> Call {
        let lengths = [1, 0, 0];
        match self {
            Way::AtEnd => Call::Insert { before: NONE, lengths },
            Way::Before => Call::Insert { before: 0, lengths },
            Way::Split => Call::Split { id: 0, lengths, before: true },
        }
    }
}

/// Makes entries for a seat until it is refused, which is by 18.
fn paste<const N: usize>(list: &mut Seated<N, Tree>, seat: u32, way: Way) -> u32 {
    let count = list.row.count();
    let refused = loop {
        match list.play(Some(seat), way.call()).unwrap() {
            0 => continue,
            number => break number,
        }
    };
    assert_eq!(refused, 18);
    list.row.count() - count
}

fn one_pastes<const N: usize>(limit: u32, shares: [u32; 8], paster: u32, way: Way) {
    let others = || (0..8).filter(|&seat| seat != paster);
    let mut list = Seated::<N, Tree>::new(Tree::of(&seated::<N>(limit, LONG, shares)), row(limit, LONG, shares));
    for round in 0..2 {
        let kept: u32 = others().map(|seat| shares[seat as usize]).sum();
        assert_eq!(paste(&mut list, paster, way), limit - 1 - kept, "N {N}, {shares:?}, seat {paster} by {way:?}");
        for seat in others() {
            assert_eq!(
                paste(&mut list, seat, WAYS[seat as usize % 3]),
                shares[seat as usize],
                "N {N}, {shares:?}, seat {seat}"
            );
        }
        assert_eq!(list.row.free(), 0);
        (0..8).for_each(|seat| assert_eq!(list.play(Some(seat), way.call()), Ok(18)));
        if round == 0 {
            assert_eq!(list.play(None, Call::Reset { lengths: LONG }), Ok(0));
        }
    }
}

/// One seat takes all that the rules leave it; then every other seat still gets its share, and nobody more. The same again after a
/// reset.
#[test]
fn one_seat_pastes_and_the_others_fill_their_shares() {
    let mut lists = 0;
    for fan in FANS {
        for (limit, shares) in PLANS {
            for (paster, way) in (0..8).flat_map(|paster| WAYS.map(|way| (paster, way))) {
                at_fan!(fan, N => one_pastes::<N>(limit, shares, paster, way));
                lists += 1;
            }
        }
    }
    println!("{lists} pastes");
}

/// Every list of entries for these seats, from here on: after each, every seat is tried. A refused call leaves everything, so it ends its
/// list.
fn every_list<const N: usize>(list: &Seated<N, Tree>, seats: u32, played: &mut [u64; 2]) {
    for seat in 0..seats {
        let mut next = list.clone();
        let way = WAYS[(seat + list.row.count()) as usize % 3];
        let number = next.play(Some(seat), way.call()).unwrap();
        played[(number == 18) as usize] += 1;
        if number == 0 {
            every_list(&next, seats, played);
        }
    }
}

/// Calls that with every vector of that many numbers that sum to that or less, zeros behind them.
fn every_vector(seats: usize, sum: u32, of: &mut impl FnMut([u32; 8])) {
    fn go(shares: &mut [u32; 8], seat: usize, seats: usize, left: u32, of: &mut impl FnMut([u32; 8])) {
        if seat == seats {
            return of(*shares);
        }
        for share in 0..=left {
            shares[seat] = share;
            go(shares, seat + 1, seats, left - share, of);
        }
    }
    go(&mut [0; 8], 0, seats, sum, of)
}

/// Trees of that limit with every vector of shares of the first seats that sum to at most limit and one more, and all their lists; one seat
/// more has no share. Answers how many vectors were taken and how many refused by 19.
fn every_tree<const N: usize>(limit: u32, seats: usize, played: &mut [u64; 2]) -> [u64; 2] {
    let mut vectors = [0; 2];
    every_vector(seats, limit + 1, &mut |shares| {
        let made = Row::seated(limit, LONG, shares);
        let given =
            Given { fan: N as u32, limit, shares: Some(shares), lengths: three(LONG).into(), ..Given::default() };
        let mut tree = Tree::of(&on_zeros::<N>(limit, LONG));
        let number = Export::New.play(&mut tree, &given).number;
        assert_eq!(number, made.as_ref().map_or_else(|&number| number as u32, |_| 0), "limit {limit}, {shares:?}");
        vectors[(number == 19) as usize] += 1;
        if let Ok(row) = made {
            let tried = (seats as u32 + 1).min(8);
            every_list(&Seated::<N, Tree>::new(tree, row), tried, played);
        }
    });
    vectors
}

#[test]
fn every_share_vector_of_small_limits() {
    let mut played = [0; 2];
    for limit in 1..=if SCALE == 1 { 5 } else { 6 } {
        let vectors = every_tree::<4>(limit, 3, &mut played);
        println!("limit {limit}, three seats: {vectors:?} vectors taken and refused, {played:?} calls so far");
        assert!(vectors.iter().all(|&count| count > 0));
    }
    for limit in 1..=if SCALE == 1 { 3 } else { 4 } {
        let vectors = every_tree::<5>(limit, 8, &mut played);
        println!("limit {limit}, eight seats: {vectors:?} vectors taken and refused, {played:?} calls so far");
    }
    assert!(played.iter().all(|&count| count > 1_000));
}

/// What each call leaves in the head's words of the seats.
#[test]
fn the_words_of_the_seats() {
    let shares = [3, 0, 0, 0, 0, 0, 0, 6];
    let mut tree = seated::<4>(10, FIRST, shares);
    assert_eq!((tree.shares(), tree.charges()), (Some(shares), Some([0; 8])));
    let lengths = three([1, 1, 0]);
    tree.insert_for(0, None, lengths).unwrap();
    tree.split_entry_for(7, tree.cursor(0).unwrap(), lengths, true).unwrap();
    tree.insert_for(7, tree.cursor(2).ok(), lengths).unwrap();
    let charges = [1, 0, 0, 0, 0, 0, 0, 2];
    assert_eq!((tree.shares(), tree.charges(), tree.audit()), (Some(shares), Some(charges), Ok(true)));
    let head = tree.head();
    assert_eq!((head[SEATED], &head[SHARES..CHARGES], &head[CHARGES..]), (1, &shares[..], &charges[..]));
    tree.update(tree.cursor(1).unwrap(), three([5, 5, 5])).unwrap();
    tree.locate(smelvock::View::Prepare, 3).unwrap();
    assert_eq!((tree.shares(), tree.charges()), (Some(shares), Some(charges)));
    tree.reset(lengths).unwrap();
    assert_eq!((tree.shares(), tree.charges(), tree.audit()), (Some(shares), Some([0; 8]), Ok(true)));
    let plain = on_zeros::<4>(10, FIRST);
    assert_eq!((plain.shares(), plain.charges(), &plain.head()[SEATED..]), (None, None, &[0; 17][..]));
}
