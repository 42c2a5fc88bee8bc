//! Folders and calls of the program for the tests.
#![allow(dead_code)]

use std::fs;
use std::path::{Path, PathBuf};
use std::process::Command;

use galz::yard::Files;

/// What the program printed, and its status.
#[derive(Debug, PartialEq, Eq)]
pub struct Printed {
    pub status: i32,
    pub out: String,
    pub err: String,
}

/// Runs the program.
pub fn galz(words: &[&str]) -> Printed {
    let output = Command::new(env!("CARGO_BIN_EXE_galz"))
        .args(words)
        .output()
        .expect("galz runs");
    let text = |bytes: Vec<u8>| String::from_utf8(bytes).expect("galz prints text");
    Printed {
        status: output.status.code().expect("galz ends by itself"),
        out: text(output.stdout),
        err: text(output.stderr),
    }
}

/// An empty folder of this name.
pub fn folder(name: &str) -> PathBuf {
    let path = Path::new(env!("CARGO_TARGET_TMPDIR")).join(name);
    let _ = fs::remove_dir_all(&path);
    fs::create_dir_all(&path).expect("a folder can be made");
    path
}

/// A folder with these files; one of length 0 is left out.
pub fn folder_of(name: &str, files: &Files) -> PathBuf {
    let path = folder(name);
    for (name, bytes) in [
        ("MAP", &files.map),
        ("PLACING", &files.placing),
        ("PLAN", &files.plan),
        ("MOVES", &files.moves),
    ] {
        if !bytes.is_empty() {
            fs::write(path.join(name), bytes).expect("a file can be written");
        }
    }
    path
}

/// The files of a yard written as text.
pub fn files(text: &str) -> Files {
    galz::text::read(text).expect("the text is good").files()
}

/// The examples folder.
pub fn examples() -> PathBuf {
    Path::new(env!("CARGO_MANIFEST_DIR")).join("../../examples")
}

/// The names and texts of the examples.
pub fn each_example() -> Vec<(String, String)> {
    let entries = fs::read_dir(examples()).expect("examples can be listed");
    let mut found: Vec<(String, String)> = entries
        .map(|entry| entry.expect("an entry can be read").path())
        .filter(|path| path.extension().is_some_and(|extension| extension == "txt"))
        .map(|path| {
            let name = path.file_stem().expect("a file has a name");
            let text = fs::read_to_string(&path).expect("an example can be read");
            (name.to_string_lossy().into_owned(), text)
        })
        .collect();
    found.sort();
    found
}
