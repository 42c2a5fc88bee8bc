#![forbid(unsafe_code)]
//! `galz`: making, trying and seeing a yard.

use std::io::{self, Write};
use std::process::ExitCode;

use galz::command::{self, Outcome};

fn main() -> ExitCode {
    let arguments: Vec<String> = std::env::args().skip(1).collect();
    let words: Vec<&str> = arguments.iter().map(String::as_str).collect();
    let Outcome { status, out, err } = command::run(&words);
    // A reader that goes away early is no fault.
    let _ = io::stdout().write_all(out.as_bytes());
    let _ = io::stderr().write_all(err.as_bytes());
    ExitCode::from(status)
}
