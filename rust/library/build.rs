#![forbid(unsafe_code)]
//! Links the proved library.

use std::env;
use std::path::Path;
use std::process::ExitCode;

fn main() -> ExitCode {
    let package = env::var("CARGO_MANIFEST_DIR").unwrap_or_default();
    let Some(root) = Path::new(&package).ancestors().nth(2) else {
        eprintln!("{package} is not two folders below the root");
        return ExitCode::FAILURE;
    };
    let folder = root.join("target/staticlib");
    let archive = folder.join("libgalzpuna.a");
    println!("cargo::rerun-if-changed=build.rs");
    println!("cargo::rerun-if-changed={}", archive.display());
    if !archive.exists() {
        eprintln!("The proved library is missing: {}", archive.display());
        eprintln!("Write it: {}/tools/staticlib", root.display());
        return ExitCode::FAILURE;
    }
    println!("cargo::rustc-link-search=native={}", folder.display());
    println!("cargo::rustc-link-lib=static=galzpuna");
    ExitCode::SUCCESS
}
