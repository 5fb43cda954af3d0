//! Links the static libraries that `rt lib` writes, and makes them where they are missing or older than the code.
//! Copies stand in OUT_DIR, so that the build doesn't need a crate's out/ again, which `rt ci` removes.

use std::path::{Path, PathBuf};
use std::process::Command;
use std::time::SystemTime;
use std::{env, fs};

/// The crates whose exports are linked; `.ci/run` makes the same.
const LIBRARIES: [&str; 4] = ["smelvock", "smelvock_planning", "smelvock_reading", "door"];

fn main() {
    let root = PathBuf::from(env::var("CARGO_MANIFEST_DIR").expect("cargo sets it")).join("../..");
    let copies = PathBuf::from(env::var("OUT_DIR").expect("cargo sets it"));
    let code = newest(&root.join("crates"));
    for name in LIBRARIES {
        link(name, &root, &copies, code);
    }
    println!("cargo:rerun-if-changed=build.rs");
    println!("cargo:rerun-if-changed={}", root.join("crates").display());
    println!("cargo:rustc-link-search=native={}", copies.display());
}

/// Links the library of one crate, made anew where the code is newer. Its tests find it by the crate's name (`SMELVOCK_LIBRARY`).
fn link(name: &str, root: &Path, copies: &Path, code: SystemTime) {
    let file = format!("lib{name}.a");
    let folder = root.join("crates").join(name);
    let library = folder.join("out").join(&file);
    let copy = copies.join(&file);
    if modified(&library).max(modified(&copy)) < code {
        let done = Command::new("rt").arg("lib").current_dir(folder).status();
        assert!(done.is_ok_and(|status| status.success()), "rt lib failed in crates/{name}");
    }
    if modified(&library) >= modified(&copy) {
        fs::copy(&library, &copy).expect("the library is there");
    }
    println!("cargo:rerun-if-changed={}", library.display());
    println!("cargo:rustc-link-lib=static={name}");
    println!("cargo:rustc-env={}_LIBRARY={}", name.to_uppercase(), copy.display());
}

/// When a file was last written; a missing one is older than any.
fn modified(file: &Path) -> SystemTime {
    fs::metadata(file).and_then(|known| known.modified()).unwrap_or(SystemTime::UNIX_EPOCH)
}

/// When the newest Rattle file below a folder was written. Proofs are left out: they are no part of the library.
fn newest(folder: &Path) -> SystemTime {
    let files = fs::read_dir(folder).expect("the folder is there").map(|file| file.expect("it can be read").path());
    let times = files.map(|path| match path.extension() {
        _ if path.ends_with("out") => SystemTime::UNIX_EPOCH,
        _ if path.is_dir() => newest(&path),
        Some(kind) if kind == "rt" => modified(&path),
        _ => SystemTime::UNIX_EPOCH,
    });
    times.max().unwrap_or(SystemTime::UNIX_EPOCH)
}
