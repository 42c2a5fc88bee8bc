#![forbid(unsafe_code)]
//! Compares the proved library with the Rust version on generated or replayed
//! cases: number, place and the whole buffer.
//!
//! - `compare --seed S --count N [--services draw,rounds]`
//! - `compare replay FILE` runs the cases of a file, one on each line.

mod proved;

use std::collections::BTreeMap;
use std::panic;
use std::process::ExitCode;
use std::time::{Duration, Instant};

use cases::{Case, Generator, Outcome, Service, REFERENCE};

use proved::PROVED;

const USAGE: &str = "compare --seed S --count N [--services draw,rounds]
compare replay FILE";
/// From one line of progress to the next.
const PACE: Duration = Duration::from_secs(10);

fn main() -> ExitCode {
    let arguments: Vec<String> = std::env::args().skip(1).collect();
    let words: Vec<&str> = arguments.iter().map(String::as_str).collect();
    let done = match words[..] {
        ["--seed", seed, "--count", count] => run(seed, count, &Service::ALL),
        ["--seed", seed, "--count", count, "--services", chosen] => {
            services(chosen).and_then(|chosen| run(seed, count, &chosen))
        }
        ["replay", path] => replay(path),
        _ => Err(USAGE.to_string()),
    };
    match done {
        Ok(()) => ExitCode::SUCCESS,
        Err(message) => {
            eprintln!("{message}");
            ExitCode::FAILURE
        }
    }
}

/// The services of a list of words.
fn services(words: &str) -> Result<Vec<Service>, String> {
    let service = |word: &str| {
        let mut known = Service::ALL.into_iter();
        let service = known.find(|service| service.word() == word);
        service.ok_or(format!("no service {word}"))
    };
    words.split(',').map(service).collect()
}

/// Compares one case; a difference comes with its case.
fn check(case: &Case) -> Result<Outcome, (String, Case)> {
    match panic::catch_unwind(|| cases::compare(case, &[REFERENCE, PROVED])) {
        Ok(Ok(outcome)) => Ok(outcome),
        Ok(Err(violation)) => Err((violation.fault, violation.case)),
        Err(_) => Err(("panicked".to_string(), case.clone())),
    }
}

fn run(seed: &str, count: &str, services: &[Service]) -> Result<(), String> {
    let (Ok(seed), Ok(count)) = (seed.parse(), count.parse()) else {
        return Err(USAGE.to_string());
    };
    let mut generator = Generator::for_services(seed, services);
    let mut tally: BTreeMap<(Service, u32), usize> = BTreeMap::new();
    let start = Instant::now();
    let mut told = start;
    for index in 1..=count {
        let case = generator.next_case();
        let outcome = check(&case).map_err(|(fault, case)| {
            let kept = keep(&case, &format!("failing-{seed}-{index}.case"));
            format!("case {index}: {fault}\n{kept}\n{case}")
        })?;
        *tally
            .entry((case.service, outcome.answer.number))
            .or_default() += 1;
        if told.elapsed() >= PACE {
            told = Instant::now();
            tell(index, count, start.elapsed());
        }
    }
    let seconds = start.elapsed().as_secs_f64();
    println!("{count} of {count} cases agree, {seconds:.1} s");
    for &service in services {
        let of_service = || tally.iter().filter(|((of, _), _)| *of == service);
        let calls: usize = of_service().map(|(_, times)| times).sum();
        println!("{}: {calls} calls", service.word());
        for ((_, number), times) in of_service() {
            println!("  {number:2} {times}");
        }
    }
    Ok(())
}

/// A line of progress, beside what the comparison prints.
fn tell(index: usize, count: usize, elapsed: Duration) {
    let seconds = elapsed.as_secs_f64();
    let left = seconds / index as f64 * (count - index) as f64;
    let percent = 100.0 * index as f64 / count as f64;
    eprintln!(
        "{index} of {count} cases agree ({percent:.0}%), {seconds:.0} s, about {left:.0} s to go"
    );
}

/// Writes a case to a file that `replay` reads.
fn keep(case: &Case, path: &str) -> String {
    match std::fs::write(path, format!("{case}\n")) {
        Ok(()) => format!("the case is in {path}:"),
        Err(error) => format!("{path}: {error}; the case:"),
    }
}

fn replay(path: &str) -> Result<(), String> {
    let text = std::fs::read_to_string(path).map_err(|error| format!("{path}: {error}"))?;
    for line in text.lines().filter(|line| !line.trim().is_empty()) {
        let case: Case = line.parse()?;
        let outcome = check(&case).map_err(|(fault, case)| format!("{fault}\n{case}"))?;
        println!(
            "{} {} {}",
            case.service.word(),
            outcome.answer.number,
            outcome.answer.place
        );
    }
    Ok(())
}
