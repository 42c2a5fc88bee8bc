#![forbid(unsafe_code)]
//! Runs the implementations on generated or replayed cases.
//!
//! - `cases run --seed S --count N` checks cases and counts the answers.
//! - `cases rows --seed S --count N` prints small cases with their answers.
//! - `cases replay FILE` checks the cases of a file, one on each line.
//! - `cases calls --seed S --count N` writes cases with the Rust version's
//!   answers, as bytes.
//! - `cases lengths --seed S --step N` writes, likewise, a small case of a
//!   service that writes for each N-th length of the buffer from 0 to 66,000.
//! - `cases inputs --seed S --count N FOLDER` writes cases of up to 16,384
//!   bytes as the files that `host/fuzz` starts from.

use std::collections::BTreeMap;
use std::io::{self, BufWriter, Write};
use std::panic;
use std::process::ExitCode;

use cases::{
    call, examine, fuzz_input, implementations, Case, Generator, Outcome, Service, REFERENCE,
};

const USAGE: &str = "cases run --seed S --count N
cases rows --seed S --count N
cases replay FILE
cases calls --seed S --count N
cases lengths --seed S --step N
cases inputs --seed S --count N FOLDER";
/// The longest buffer of `lengths`.
const LONGEST: usize = 66_000;
/// The longest file of `inputs`.
const LONGEST_INPUT: usize = 16_384;

fn main() -> ExitCode {
    let arguments: Vec<String> = std::env::args().skip(1).collect();
    let words: Vec<&str> = arguments.iter().map(String::as_str).collect();
    let done = match words[..] {
        ["run", "--seed", seed, "--count", count] => numbers(seed, count).and_then(run),
        ["rows", "--seed", seed, "--count", count] => numbers(seed, count).and_then(rows),
        ["replay", path] => replay(path),
        ["calls", "--seed", seed, "--count", count] => numbers(seed, count).and_then(calls),
        ["lengths", "--seed", seed, "--step", step] => numbers(seed, step).and_then(lengths),
        ["inputs", "--seed", seed, "--count", count, folder] => {
            numbers(seed, count).and_then(|numbers| inputs(numbers, folder))
        }
        _ => Err(USAGE.to_string()),
    };
    match done {
        Ok(()) => ExitCode::SUCCESS,
        Err(message) => {
            eprintln!("{message}");
            ExitCode::FAILURE
        }
    }
}

fn numbers(seed: &str, count: &str) -> Result<(u64, usize), String> {
    match (seed.parse(), count.parse()) {
        (Ok(seed), Ok(count)) => Ok((seed, count)),
        _ => Err(USAGE.to_string()),
    }
}

/// Checks one case on all implementations; a fault comes with its case.
fn check(case: &Case) -> Result<Outcome, String> {
    match panic::catch_unwind(|| examine(case, &implementations())) {
        Ok(Ok(outcome)) => Ok(outcome),
        Ok(Err(violation)) => Err(format!("{}\n{}", violation.fault, violation.case)),
        Err(_) => Err(format!("panicked\n{case}")),
    }
}

fn run((seed, count): (u64, usize)) -> Result<(), String> {
    let mut generator = Generator::new(seed);
    let mut tally: BTreeMap<(Service, u32), usize> = BTreeMap::new();
    for _ in 0..count {
        let case = generator.next_case();
        let outcome = check(&case)?;
        *tally
            .entry((case.service, outcome.answer.number))
            .or_default() += 1;
    }
    for service in Service::ALL {
        println!("{}", service.word());
        for ((_, number), times) in tally.iter().filter(|((of, _), _)| *of == service) {
            println!("  {number:2} {times}");
        }
    }
    Ok(())
}

fn rows((seed, count): (u64, usize)) -> Result<(), String> {
    let mut generator = Generator::small(seed);
    let mut out = BufWriter::new(io::stdout().lock());
    for _ in 0..count {
        let case = generator.next_case();
        let outcome = check(&case)?;
        writeln!(out, "{case} {}", outcome.text()).map_err(|error| error.to_string())?;
    }
    Ok(())
}

fn replay(path: &str) -> Result<(), String> {
    let text = std::fs::read_to_string(path).map_err(|error| format!("{path}: {error}"))?;
    for line in text.lines().filter(|line| !line.trim().is_empty()) {
        let case: Case = line.parse()?;
        let outcome = check(&case)?;
        println!(
            "{} {} {}",
            case.service.word(),
            outcome.answer.number,
            outcome.answer.place
        );
    }
    Ok(())
}

fn calls((seed, count): (u64, usize)) -> Result<(), String> {
    let mut generator = Generator::new(seed);
    write_calls((0..count).map(|_| generator.next_case()))
}

fn lengths((seed, step): (u64, usize)) -> Result<(), String> {
    let mut generator = Generator::small(seed);
    let mut writing_case = || loop {
        let case = generator.next_case();
        if case.service != Service::Judge {
            return case;
        }
    };
    write_calls((0..=LONGEST).step_by(step.max(1)).map(|room| Case {
        room,
        ..writing_case()
    }))
}

/// Writes cases with the Rust version's answers.
fn write_calls(cases: impl Iterator<Item = Case>) -> Result<(), String> {
    let mut out = BufWriter::new(io::stdout().lock());
    for case in cases {
        let outcome = Outcome::of(&case, &REFERENCE);
        let written = out.write_all(&call(&case, &outcome));
        written.map_err(|error| error.to_string())?;
    }
    out.flush().map_err(|error| error.to_string())
}

fn inputs((seed, count): (u64, usize), folder: &str) -> Result<(), String> {
    let mut generator = Generator::new(seed);
    let mut fitting_input = || loop {
        let input = fuzz_input(&generator.next_case());
        if let Some(input) = input.filter(|input| input.len() <= LONGEST_INPUT) {
            return input;
        }
    };
    for index in 0..count {
        let input = fitting_input();
        let path = format!("{folder}/{seed}-{index}");
        std::fs::write(&path, input).map_err(|error| format!("{path}: {error}"))?;
    }
    Ok(())
}
