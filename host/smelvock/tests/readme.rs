//! The README's Rust, compiled and run: each of its blocks stands here line by line.

use smelvock::{Bounds, Lengths, PlanningTree, PrepareEffectTree, ReadingCopy};
use std::error::Error;

type Done = Result<(), Box<dyn Error>>;

mod embedding {
    use smelvock::{Lengths, PrepareEffectTree, Refusal, View};

    fn main() -> Result<(), Refusal> {
        let mut tree = PrepareEffectTree::<8>::new(Lengths { prepare: 3, effect: 3, lines: 1 })?;
        let (id, position) = tree.insert(None, Lengths { prepare: 2, effect: 0, lines: 2 })?;
        assert_eq!((id, position), (1, 3));
        let (at, offset, effect, prepare, examined) = tree.locate(View::Prepare, 4)?;
        assert_eq!((tree.id(at)?, offset, effect, prepare, examined), (1, 1, 3, 3, 3));
        let (at, line, ..) = tree.locate(View::Lines, 2)?;
        assert_eq!((tree.id(at)?, line), (1, 1));
        Ok(())
    }

    #[test]
    fn a_program_of_lib_rs() {
        assert_eq!(main(), Ok(()));
    }
}

#[test]
fn seats() -> Done {
    let one = Lengths { prepare: 1, effect: 1, lines: 0 };
    let mut sheet = PrepareEffectTree::<8>::with_shares(6, one, [1, 2, 0, 0, 0, 0, 0, 0])?;
    while sheet.insert_for(0, None, one).is_ok() {}
    assert_eq!(sheet.charges(), Some([3, 0, 0, 0, 0, 0, 0, 0]));
    assert!(sheet.insert_for(1, None, one).is_ok());
    Ok(())
}

#[test]
fn a_plan() -> Done {
    let exactly = |length| Bounds { lowest: length, highest: length };
    let mut plan = PlanningTree::<8>::new(exactly(5))?;
    let (code, _) = plan.insert(None, Bounds { lowest: 4, highest: 8 })?;
    let (end, latest) = plan.insert(None, exactly(1))?;
    assert_eq!((plan.earliest(end)?, latest), (9, 13));
    assert_eq!((plan.first_at(10)?, plan.last_at(10)?), (code, end));
    plan.set(code, exactly(6))?;
    assert_eq!((plan.earliest(end)?, plan.latest(end)?), (11, 11));
    Ok(())
}

#[test]
fn a_reading_copy() -> Done {
    let mut copy = ReadingCopy::<8>::new(3)?;
    let (id, position) = copy.insert(None, 5)?;
    assert_eq!((position, copy.lookup(4)?), (3, (id, 1, 3)));
    Ok(())
}

#[test]
fn a_stored_tree() -> Done {
    let tree = PrepareEffectTree::<8>::new(Lengths { prepare: 3, effect: 3, lines: 1 })?;
    let file = tree.to_bytes();
    let mut tree = PrepareEffectTree::<8>::from_bytes(&file)?;
    assert_eq!(tree.repair()?, 0); // words put right
    assert!(tree.audit()?);
    Ok(())
}

#[test]
fn every_block_stands_here() {
    let lines = |text: &'static str| text.lines().map(str::trim).filter(|line| !line.is_empty()).collect::<Vec<_>>();
    let here = lines(include_str!("readme.rs"));
    let blocks = include_str!("../../../README.md").split("```rust\n").skip(1);
    let blocks = blocks.map(|block| lines(block.split("```").next().unwrap())).collect::<Vec<_>>();
    for block in &blocks {
        assert!(here.windows(block.len()).any(|run| run == &block[..]), "{}", block.join("\n"));
    }
    println!("{} blocks", blocks.len());
    assert!(blocks.len() >= 5);
}
