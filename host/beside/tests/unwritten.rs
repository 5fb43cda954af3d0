//! A new tree's areas are memory as it comes, with whatever that held. The tree's answers, heads and words in use are those of the same
//! tree on areas of zeros, and so lib.rs's, and `areas()` has the words in use and no other. A planning tree's and a reading
//! copy's are lib.rs's too.

use beside::both::{refusal, Both};
use beside::planning::Beside;
use beside::port::{three, Port};
use beside::reading::{there, Alone};
use oracle::at_fan;
use oracle::calls::{entries, play};
use oracle::coverage::Coverage;
use oracle::cursors::{Held, Source};
use oracle::fans::FANS;
use oracle::lists::{with_resets, Lister, Sizes, Style, GROWING};
use oracle::planning::{self, bounds};
use oracle::record::Call;
use oracle::row::Entry;
use oracle::runs::Run;
use oracle::rust::{Reply, Subject};
use oracle::state::{node_words, Head, State};
use smelvock::raw::word::{ENTRIES, INNERS, LEAVES, LEVELS};
use smelvock::{Bounds, Cursor, PlanningTree, PrepareEffectTree, ReadingCopy};
use std::alloc::{GlobalAlloc, Layout, System};
use std::fmt::Debug;
use std::sync::atomic::{AtomicU32, AtomicUsize, Ordering::Relaxed};

/// Every word of the memory that this allocator gives, unless zeros are asked for.
static GARBAGE: AtomicU32 = AtomicU32::new(0);
/// How many words it has filled so.
static FILLED: AtomicUsize = AtomicUsize::new(0);

struct Littered;

#[global_allocator]
static MEMORY: Littered = Littered;

// SAFETY: the memory is the system's.
unsafe impl GlobalAlloc for Littered {
    unsafe fn alloc(&self, layout: Layout) -> *mut u8 {
        let memory = System.alloc(layout);
        if !memory.is_null() {
            let (words, garbage) = (layout.size() / 4, GARBAGE.load(Relaxed));
            (0..words).for_each(|word| memory.cast::<u32>().add(word).write_unaligned(garbage));
            FILLED.fetch_add(words, Relaxed);
        }
        memory
    }

    unsafe fn alloc_zeroed(&self, layout: Layout) -> *mut u8 {
        System.alloc_zeroed(layout)
    }

    unsafe fn dealloc(&self, memory: *mut u8, layout: Layout) {
        System.dealloc(memory, layout)
    }
}

/// lib.rs and the port on zeros, and the port on areas of its own.
#[derive(Clone)]
struct Three<const N: usize> {
    both: Both<N>,
    own: Port<N>,
    held: Held<Cursor>,
}

impl<const N: usize> Three<N> {
    fn make(limit: u32, lengths: [u32; 3]) -> Self {
        let both = Both::make(limit, lengths);
        let before = FILLED.load(Relaxed);
        let own = Port(PrepareEffectTree::with_limit(limit, three(lengths)).expect("fan and limit are good"), None);
        let all = both.port().areas();
        let words = all.leaves.len() + all.inners.len() + all.homes.len();
        assert!(FILLED.load(Relaxed) - before >= words, "the new tree's {words} words held garbage");
        let three = Three { both, own, held: Held::default() };
        three.same_words("make");
        three
    }

    /// The tree's own areas have the words in use, and these are the words of the tree on zeros.
    fn same_words(&self, call: impl Debug) {
        let (own, zeros) = (&self.own.0, self.both.port());
        let head = own.head();
        assert_eq!(head, zeros.head(), "N {N}, head after {call:?}");
        let node = node_words(N as u32);
        let used = [head[LEAVES] as usize * node, head[INNERS] as usize * node, head[ENTRIES] as usize];
        let (own, zeros) = (own.areas(), zeros.areas());
        let areas = [(own.leaves, zeros.leaves), (own.inners, zeros.inners), (own.homes, zeros.homes)];
        for ((own, zeros), used) in areas.into_iter().zip(used) {
            assert_eq!(own.len(), used, "N {N}, words in use after {call:?}");
            assert!(own == &zeros[..used], "N {N}, after {call:?}: {own:x?}, on zeros {:x?}", &zeros[..used]);
        }
    }
}

impl<const N: usize> Subject for Three<N> {
    fn call(&mut self, call: Call, from: Source) -> Reply {
        let both = self.both.call(call, from);
        assert_eq!(play(&mut self.own, &mut self.held, call, from), both, "N {N}, {call:?} from {from:?}");
        self.same_words(call);
        both
    }

    fn refused(&mut self, call: Call, from: Source, number: u8) {
        self.both.refused(call, from, number);
        let refusal = refusal(&mut self.own.0, &self.held, call, from);
        assert_eq!(refusal.map(|refusal| refusal.number), Some(number as u32), "N {N}, {call:?} from {from:?}");
        self.same_words(call);
    }

    fn head(&self) -> Head {
        self.both.head()
    }

    fn state(&self) -> State {
        self.both.state()
    }

    fn entries(&self) -> Vec<Entry> {
        assert_eq!(self.own.0.audit(), Ok(true));
        assert_eq!(self.own.0.sheet(), self.both.port().sheet());
        let mut repaired = self.own.0.clone();
        assert_eq!((repaired.repair(), repaired.areas()), (Ok(0), self.own.0.areas()));
        let stored = PrepareEffectTree::<N>::from_bytes(&self.own.0.to_bytes()).expect("it was just stored");
        assert_eq!((stored.head(), stored.audit()), (self.own.0.head(), Ok(true)));
        entries(&self.own)
    }

    fn copy(&self) -> Box<dyn Subject> {
        Box::new(self.clone())
    }
}

fn all_three(fan: u32, limit: u32, lengths: [u32; 3]) -> Box<dyn Subject> {
    at_fan!(fan, N => Box::new(Three::<N>::make(limit, lengths)))
}

/// A list of 800 calls on a planning tree; answers how many levels it has then.
fn planned<const N: usize>(seed: u64) -> u32 {
    let port =
        PlanningTree::<N>::with_limit(400, Bounds { lowest: 2, highest: 4 }).expect("fan, limit and bounds are good");
    let mut list = Beside::<N, _>::new(port, 400, bounds(2, 4));
    let style = planning::lists::Style { weights: planning::lists::GROWING, sizes: Sizes::Small, close: 50, miss: 4 };
    let mut lister = planning::lists::Lister::new(seed, style);
    for call in 0..800 {
        let drawn = lister.draw(&list.row);
        list.play(drawn, call % 20 == 0).unwrap_or_else(|parted| panic!("call {call} of seed {seed}: {parted}"));
    }
    list.port.head()[LEVELS]
}

/// The same on a reading copy.
fn copied<const N: usize>(seed: u64) -> u32 {
    let copy = ReadingCopy::<N>::with_limit(400, 3).expect("fan and limit are good");
    let mut list = Alone::<N, _>::new(copy, 400, 3);
    let mut lister = Lister::new(seed, Style { weights: GROWING, sizes: Sizes::Small, close: 50, miss: 4 });
    for call in 0..800 {
        let Some(drawn) = lister.draw(&list.row).call().and_then(there) else { continue };
        list.play(drawn, call % 20 == 0).unwrap_or_else(|parted| panic!("call {call} of seed {seed}: {parted}"));
    }
    list.copy.head()[LEVELS]
}

/// Lists that grow over several levels and begin anew, on words that no tree has, on numbers of nodes and entries, and on zeros.
#[test]
fn whatever_the_memory_held() {
    let style = Style { weights: with_resets(GROWING), sizes: Sizes::Small, close: 50, miss: 4 };
    let lists = if cfg!(debug_assertions) { 1 } else { 3 };
    let run = Run { name: "unwritten", style, limit: 900, first: [2, 1, 1], lists, calls: 5_000, check_every: 500 };
    let (mut met, mut most_levels) = (Coverage::default(), 0);
    for (garbage, seed) in [0xdead_beef, u32::MAX, 1, 3, 0].into_iter().zip(0..) {
        GARBAGE.store(garbage, Relaxed);
        let (at_fans, _) = run.at_each_fan(all_three, seed * 100);
        assert!(at_fans[0].most_levels >= 5 && at_fans.iter().all(|at_fan| at_fan.most_levels >= 2));
        at_fans.iter().for_each(|at_fan| met += at_fan);
        let levels = FANS.map(|fan| at_fan!(fan, N => planned::<N>(seed * 100 + fan as u64)));
        let copies = FANS.map(|fan| at_fan!(fan, N => copied::<N>(seed * 100 + fan as u64)));
        println!("planning trees and reading copies: 800 calls at each fan, levels {levels:?}, {copies:?}");
        most_levels = most_levels.max(levels[0].min(copies[0]));
    }
    println!("unwritten: {} calls, {met:?}; {} words of garbage", met.calls(), FILLED.load(Relaxed));
    assert!(
        met.every_view()
            && met.all_kinds()
            && met.kinds[1] > 10
            && most_levels >= 4
            && [4, 5, 6, 7, 8, 17].iter().all(|&number| met.refused[number] > 0)
    );
}
