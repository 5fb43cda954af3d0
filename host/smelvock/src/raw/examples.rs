//! What the examples of the exports begin with.

/// Of an example: a tree of fan 4, limit 5 and one entry of lengths 3, 3 and 1, on words that it lends, and a cursor there.
macro_rules! lent {
    () => {
        "# use smelvock::raw::{self, Areas, AreasMut, Cursor, Lengths, NOBODY};
# let (mut head, mut leaves, mut inners, mut homes) = ([0; 36], [0; 38], [0; 38], [0; 5]);
# let three = Lengths { prepare: 3, effect: 3, lines: 1 };
# let areas = AreasMut { leaves: &mut leaves, inners: &mut inners, homes: &mut homes };
# assert_eq!(raw::new(4, 5, three, &[], &mut head, areas), 0);
# let at = Cursor { leaf: 0, slot: 0, stamp: 1 };"
    };
}

/// The areas of an example's tree, for a call that reads them.
macro_rules! read {
    () => {
        "# let areas = Areas { leaves: &leaves, inners: &inners, homes: &homes };"
    };
}

/// And for a call that may write them.
macro_rules! written {
    () => {
        "# let areas = AreasMut { leaves: &mut leaves, inners: &mut inners, homes: &mut homes };"
    };
}
