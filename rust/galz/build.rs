#![forbid(unsafe_code)]
//! Says whether there is a Chromium, in which the tests try the page; without
//! one they are listed as ignored.

use std::env;
use std::path::PathBuf;

fn main() {
    println!("cargo::rustc-check-cfg=cfg(chromium)");
    println!("cargo::rerun-if-changed=build.rs");
    println!("cargo::rerun-if-env-changed=PATH");
    let path = env::var_os("PATH").unwrap_or_default();
    let mut programs = env::split_paths(&path).map(|folder| folder.join("chromium"));
    let found = programs.find(|program| program.is_file());
    if found.is_some() {
        println!("cargo::rustc-cfg=chromium");
    }
    // Where Debian would put it.
    let watched = found.unwrap_or(PathBuf::from("/usr/bin"));
    println!("cargo::rerun-if-changed={}", watched.display());
}
