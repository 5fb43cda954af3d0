//! What the merge asks of a tree, by id: the proved tree has it, and lib.rs's own takes its place in tests.

use oracle::tree as lib_rs;
use smelvock::{edits, EntryId, Lengths, PrepareEffectTree, Refusal, View};

/// The first entry, and two for each edit of a file: an insertion cuts one entry and puts one, a deletion cuts at either end.
pub const MOST_ENTRIES: u32 = 1 + 2 * edits::MOST as u32;

pub trait Tree: Sized {
    /// A tree of one entry, for as many as a merge makes.
    fn make(lengths: Lengths) -> Result<Self, Refusal>;
    /// The entry at a position of the prepare version, the offset into it, and the entry's effect position.
    fn find(&mut self, prepare: u32) -> Result<(EntryId, u32, u32), Refusal>;
    /// Moves lengths from an entry's end into a new one just behind it.
    fn cut(&mut self, id: EntryId, lengths: Lengths) -> Result<EntryId, Refusal>;
    /// A new entry before another, or at the end, and its effect position.
    fn put(&mut self, before: Option<EntryId>, lengths: Lengths) -> Result<(EntryId, u32), Refusal>;
    fn resize(&mut self, id: EntryId, lengths: Lengths) -> Result<(), Refusal>;
    fn front(&self) -> Result<EntryId, Refusal>;
    fn behind(&self, id: EntryId) -> Result<Option<EntryId>, Refusal>;
}

impl<const N: usize> Tree for PrepareEffectTree<N> {
    fn make(lengths: Lengths) -> Result<Self, Refusal> {
        PrepareEffectTree::with_limit(MOST_ENTRIES, lengths)
    }
    fn find(&mut self, prepare: u32) -> Result<(EntryId, u32, u32), Refusal> {
        let (at, offset, effect, ..) = self.locate(View::Prepare, prepare)?;
        Ok((self.id(at)?, offset, effect))
    }
    fn cut(&mut self, id: EntryId, lengths: Lengths) -> Result<EntryId, Refusal> {
        let (new, _) = self.split_entry(self.cursor(id)?, lengths, false)?;
        Ok(new)
    }
    fn put(&mut self, before: Option<EntryId>, lengths: Lengths) -> Result<(EntryId, u32), Refusal> {
        let before = before.map(|id| self.cursor(id)).transpose()?;
        self.insert(before, lengths)
    }
    fn resize(&mut self, id: EntryId, lengths: Lengths) -> Result<(), Refusal> {
        self.set_lengths(self.cursor(id)?, lengths)
    }
    fn front(&self) -> Result<EntryId, Refusal> {
        self.id(self.first()?)
    }
    fn behind(&self, id: EntryId) -> Result<Option<EntryId>, Refusal> {
        self.next(self.cursor(id)?)?.map(|at| self.id(at)).transpose()
    }
}

/// lib.rs's own tree, which refuses nothing.
impl<const N: usize> Tree for lib_rs::PrepareEffectTree<N> {
    fn make(lengths: Lengths) -> Result<Self, Refusal> {
        Ok(lib_rs::PrepareEffectTree::new(pair(lengths)))
    }
    fn find(&mut self, prepare: u32) -> Result<(EntryId, u32, u32), Refusal> {
        let (at, offset, effect) = self.locate(lib_rs::View::Prepare, prepare);
        Ok((self.id(at), offset, effect))
    }
    fn cut(&mut self, id: EntryId, lengths: Lengths) -> Result<EntryId, Refusal> {
        let (new, _) = self.split_entry(self.cursor(id), pair(lengths), false);
        Ok(new)
    }
    fn put(&mut self, before: Option<EntryId>, lengths: Lengths) -> Result<(EntryId, u32), Refusal> {
        let before = before.map(|id| self.cursor(id));
        Ok(self.insert(before, pair(lengths)))
    }
    fn resize(&mut self, id: EntryId, lengths: Lengths) -> Result<(), Refusal> {
        self.set_lengths(self.cursor(id), pair(lengths));
        Ok(())
    }
    fn front(&self) -> Result<EntryId, Refusal> {
        Ok(self.id(self.first()))
    }
    fn behind(&self, id: EntryId) -> Result<Option<EntryId>, Refusal> {
        Ok(self.next(self.cursor(id)).map(|at| self.id(at)))
    }
}

fn pair(Lengths { prepare, effect, .. }: Lengths) -> lib_rs::Lengths {
    lib_rs::Lengths { prepare, effect }
}
