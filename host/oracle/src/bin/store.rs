//! Writes the stored lists into the first folder named, `docs/oracle` of the repository, and the
//! input and output of the program that replays them into the second, `crates/replay`.

use oracle::stored::{coverage_text, replay_input, replay_output, stored};
use std::path::PathBuf;

fn main() -> std::io::Result<()> {
    let folder = |place: usize| PathBuf::from(std::env::args().nth(place).expect("name two folders to write to"));
    let (folder, program) = (folder(1), folder(2));
    let lists = stored();
    for list in &lists {
        std::fs::write(folder.join(list.name).with_extension("txt"), &list.text)?;
        std::fs::write(folder.join(list.name).with_extension("in"), &list.records)?;
    }
    std::fs::write(folder.join("coverage.txt"), coverage_text(&lists))?;
    std::fs::write(program.join("stdin"), replay_input(&lists))?;
    std::fs::write(program.join("stdout"), replay_output(&lists))?;
    print!("{}", coverage_text(&lists));
    Ok(())
}
