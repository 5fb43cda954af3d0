//! `cargo run -p merge`: README's history, merged on the proved tree.

use smelvock::{PrepareEffectTree, Refusal};

fn main() -> Result<(), Refusal> {
    print!("{}", merge::example::told::<PrepareEffectTree<8>>()?);
    Ok(())
}
