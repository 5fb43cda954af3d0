//! lib.rs and the port as one subject: every call is made on both, and everything is compared after it. Line ends, which lib.rs doesn't
//! have, are the plain row's: those of lengths, lookups and ranks in view 2, the fourth word of every slot.

use crate::port::{side, three, Port};
use crate::words::{head_of, on_zeros, raw_of};
use oracle::calls::{entries, play};
use oracle::cursors::{Held, Source};
use oracle::record::Call;
use oracle::row::Entry;
use oracle::rust::{Reply, Rust, Subject};
use oracle::sheet;
use oracle::state::{Head, State, LINES, MOST_LINES};
use smelvock::{raw, Cursor, PrepareEffectTree, Refusal};
use std::fmt::Debug;

#[derive(Clone)]
pub struct Both<const N: usize> {
    rust: Rust<N>,
    port: Port<N>,
    /// The port's own cursors; lib.rs's are with its tree.
    held: Held<Cursor>,
    /// The port's areas as they were before the call.
    before: [Vec<u32>; 3],
}

fn words<const N: usize>(tree: &PrepareEffectTree<N>) -> [&[u32]; 3] {
    let areas = tree.areas();
    [areas.leaves, areas.inners, areas.homes]
}

impl<const N: usize> Both<N> {
    pub fn make(limit: u32, lengths: [u32; 3]) -> Self {
        let port = on_zeros(limit, lengths);
        let before = words(&port).map(|area| vec![0; area.len()]);
        let mut both = Both { rust: Rust::make(limit, lengths), port: Port(port, None), held: Held::default(), before };
        both.same_words("make");
        both
    }

    /// Head and areas are lib.rs's and, where these are line ends, the row's, word by word; a word that is not in use is as it was
    /// before the call.
    fn same_words(&mut self, call: impl Debug) {
        assert_eq!(self.port.0.head(), raw_of(self.rust.head()), "N {N}, head after {call:?}");
        for ((area, before), used) in words(&self.port.0).iter().zip(&mut self.before).zip(self.rust.tree.used()) {
            let (now, rest) = area.split_at(used.len());
            assert!(*now == used, "N {N}, areas after {call:?}: {:?}, {:?}", self.rust.state(), self.port.0);
            assert!(*rest == before[used.len()..], "N {N}, unused words after {call:?}: {:?}", self.port.0);
            before[..used.len()].copy_from_slice(now);
        }
    }

    /// The sheet that lib.rs's own answers make.
    pub fn sheet(&self) -> String {
        sheet::of_tree(&self.rust.tree.rust)
    }

    /// The port's tree.
    pub fn port(&self) -> &PrepareEffectTree<N> {
        &self.port.0
    }

    /// The port's tree with other words in its place, for the tests that must fail.
    pub fn spoil(&mut self, spoil: impl Fn(&mut Head, [&mut [u32]; 3])) {
        let State { mut head, mut leaves, mut inners, mut homes } = self.state();
        spoil(&mut head, [&mut leaves, &mut inners, &mut homes]);
        self.port = Port(PrepareEffectTree::from_words(raw_of(head), leaves, inners, homes), None);
    }

    /// The port's held cursors with other words in their place, likewise.
    pub fn spoil_held(&mut self, spoil: impl Fn(&mut raw::Cursor)) {
        self.held.spoil(|cursor| {
            let mut words = raw::Cursor::from(*cursor);
            spoil(&mut words);
            *cursor = words.into();
        });
    }

    /// What `char_index_to_entry`'s own export answers and the head that it leaves: `smelvock`'s call goes through `locate`'s export.
    fn selected(&self, call: Call) -> Option<(raw::Selected, raw::Head)> {
        let Call::Select { view, index } = call else { return None };
        let mut head = self.port.0.head();
        Some((raw::char_index_to_entry(&mut head, self.port.0.areas(), view as u32, index), head))
    }
}

/// What the port answers to a row call that is refused: the refusal of `cursor` or of the call itself. Too many line ends come before
/// both: such a call is made on any cursor.
pub fn refusal<const N: usize>(
    tree: &mut PrepareEffectTree<N>,
    held: &Held<Cursor>,
    call: Call,
    from: Source,
) -> Option<Refusal> {
    let ([first, second], by_id) = (call.ids(), |id| tree.cursor(id));
    let first = held.handed(from).map(|(_, cursor)| Ok(cursor)).or_else(|| first.map(by_id));
    let overlong = call.lengths().is_some_and(|lengths| lengths[LINES] > MOST_LINES);
    let first =
        first.map(|at| at.or_else(|refusal| if overlong { Ok(raw::Cursor::default().into()) } else { Err(refusal) }));
    if let Some(refusal) = [first, second.map(by_id)].into_iter().flatten().find_map(Result::err) {
        return Some(refusal);
    }
    let at = first.and_then(Result::ok);
    match call {
        Call::Reset { lengths } => tree.reset(three(lengths)).err(),
        Call::Insert { lengths, .. } => tree.insert(at, three(lengths)).err(),
        Call::Split { lengths, before, .. } => tree.split_entry(at?, three(lengths), before).err(),
        Call::Set { lengths, .. } => tree.set_lengths(at?, three(lengths)).err(),
        Call::Update { lengths, .. } => tree.update(at?, three(lengths)).err(),
        Call::Lookup { view, index } => tree.locate(side(view), index).err(),
        Call::Select { view, index } => tree.char_index_to_entry(side(view), index).err(),
        _ => None,
    }
}

impl<const N: usize> Subject for Both<N> {
    fn call(&mut self, call: Call, from: Source) -> Reply {
        let selected = self.selected(call);
        let rust = self.rust.call(call, from);
        let port = play(&mut self.port, &mut self.held, call, from);
        assert_eq!(port, rust, "N {N}, {call:?} from {from:?}");
        let looked = self.rust.tree.looked;
        assert!(looked.within(), "N {N}, {call:?}: {looked:?}");
        if let Some((raw::Selected { number, at, offset, examined }, head)) = selected {
            let held = self.held.last(0).map(|(_, cursor)| cursor.into());
            assert_eq!(
                (number, Some(at), offset, examined, head),
                (0, held, port.fields[1], port.examined, self.port.0.head()),
                "N {N}, {call:?}"
            );
        }
        self.same_words(call);
        rust
    }

    fn refused(&mut self, call: Call, from: Source, number: u8) {
        if let Some((selected, head)) = self.selected(call) {
            assert_eq!((selected.number, head), (number as u32, self.port.0.head()), "N {N}, {call:?}");
            assert_eq!(selected.examined, 0, "N {N}, {call:?}");
        }
        let refusal = refusal(&mut self.port.0, &self.held, call, from);
        assert_eq!(refusal.map(|refusal| refusal.number), Some(number as u32), "N {N}, {call:?} from {from:?}");
        self.same_words(call);
    }

    fn head(&self) -> Head {
        head_of(self.port.0.head())
    }

    fn state(&self) -> State {
        let [leaves, inners, homes] = words(&self.port.0).map(<[u32]>::to_vec);
        State { head: self.head(), leaves, inners, homes }
    }

    fn entries(&self) -> Vec<Entry> {
        assert_eq!(self.port.0.audit(), Ok(true));
        entries(&self.port)
    }

    fn copy(&self) -> Box<dyn Subject> {
        Box::new(self.clone())
    }
}
