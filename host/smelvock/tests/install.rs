//! `install.sh` puts headers, archives and a pkg-config file in place: a C program is built with what is there and with nothing else.

use std::collections::BTreeSet;
use std::fs;
use std::path::{Path, PathBuf};
use std::process::{Command, Output};

/// README's answers, from Rust, to the same calls.
const WANTED: &str = "full tree 0: id 1 at 3, found 1 with offset 1, effect 3, prepare 3
planning tree 0: id 2 from 9 to 13, position 10 in 1 to 2, code 1
reading copy 0: at 3, found 1 with offset 1 at 3
";

const INSTALLED: [&str; 7] = [
    "include/smelvock.h",
    "include/smelvock_planning.h",
    "include/smelvock_reading.h",
    "lib/libsmelvock.a",
    "lib/libsmelvock_planning.a",
    "lib/libsmelvock_reading.a",
    "lib/pkgconfig/smelvock.pc",
];

fn install(given: &[&Path]) -> Output {
    let script = Path::new(env!("CARGO_MANIFEST_DIR")).join("../../install.sh");
    Command::new("bash").arg(script).args(given).output().expect("bash is there")
}

/// An empty folder of that name.
fn folder(name: &str) -> PathBuf {
    let folder = PathBuf::from(env!("CARGO_TARGET_TMPDIR")).join(name);
    _ = fs::remove_dir_all(&folder);
    fs::create_dir_all(&folder).expect("a folder can be made");
    folder
}

/// The files below a folder, as they are named from there.
fn files(folder: &Path) -> BTreeSet<String> {
    let inside = fs::read_dir(folder).expect("the folder is there").map(|file| file.expect("it can be read").path());
    let name = |path: &Path| path.file_name().expect("it has a name").to_string_lossy().into_owned();
    let below = inside.flat_map(|path| match path.is_dir() {
        true => files(&path).into_iter().map(|file| format!("{}/{file}", name(&path))).collect(),
        false => BTreeSet::from([name(&path)]),
    });
    below.collect()
}

/// The compiler's flags in a pkg-config file, its variables put in. Where there is a pkg-config, it says the same.
fn flags(file: &Path) -> Vec<String> {
    let mut text = fs::read_to_string(file).expect("the file is there");
    for name in ["prefix", "includedir", "libdir"] {
        let value = text.lines().find_map(|line| line.strip_prefix(&format!("{name}="))).expect("it is set").to_owned();
        text = text.replace(&format!("${{{name}}}"), &value);
    }
    let words =
        |key: &str| text.lines().find_map(|line| line.strip_prefix(key)).expect("it is there").split_whitespace();
    let flags: Vec<String> = words("Cflags:").chain(words("Libs:")).map(str::to_owned).collect();
    let folder = file.parent().expect("it stands in a folder");
    let asked =
        Command::new("pkg-config").args(["--cflags", "--libs", "smelvock"]).env("PKG_CONFIG_PATH", folder).output();
    match asked {
        Ok(said) => assert_eq!(String::from_utf8_lossy(&said.stdout).split_whitespace().collect::<Vec<_>>(), flags),
        Err(_) => println!("there is no pkg-config: its file is read here alone"),
    }
    flags
}

#[test]
fn a_c_program_is_built_with_what_was_installed() {
    let (here, prefix) = (Path::new(env!("CARGO_MANIFEST_DIR")), folder("prefix"));
    let archives = Path::new(env!("SMELVOCK_LIBRARY")).parent().expect("it stands in a folder");
    let done = install(&[&prefix, archives]);
    assert!(done.status.success(), "{}", String::from_utf8_lossy(&done.stderr));
    assert_eq!(files(&prefix), INSTALLED.map(str::to_owned).into());
    let source = |file: &str| file.strip_prefix("lib/").map_or(here.join(file), |archive| archives.join(archive));
    for file in &INSTALLED[..6] {
        assert_eq!(fs::read(prefix.join(file)).unwrap(), fs::read(source(file)).unwrap(), "{file}");
    }
    let program = folder("installed").join("installed");
    let gcc = Command::new("gcc")
        .args(["-std=c11", "-Wall", "-Wextra", "-Werror", "-pedantic", "-O2", "-o"])
        .arg(&program)
        .arg(here.join("tests/installed.c"))
        .args(flags(&prefix.join(INSTALLED[6])))
        .status();
    assert!(gcc.expect("gcc is there").success());
    let ran = Command::new(&program).output().expect("the program runs");
    assert_eq!(String::from_utf8_lossy(&ran.stdout), WANTED);
    println!("{} files installed, a C program built with them", INSTALLED.len());
}

#[test]
fn without_archives_nothing_is_installed() {
    let (prefix, empty) = (folder("nothing"), folder("empty"));
    assert_eq!(install(&[&prefix, &empty]).status.code(), Some(1));
    assert_eq!(install(&[]).status.code(), Some(2));
    assert_eq!(files(&prefix), BTreeSet::new());
}
