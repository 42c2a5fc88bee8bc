#![forbid(unsafe_code)]
//! How long the proved library and the Rust version take on the same inputs,
//! called in turn: medians, and the ratio of the two.
//!
//! `bench [--turns N] [PART ...]`: the trials with one of the parts in their
//! names, or all. Trials of growth also give the nanoseconds for each step,
//! move or point.

mod trials;
mod yards;

use std::hint::black_box;
use std::process::ExitCode;
use std::time::{Duration, Instant};

use reference::Answer;

use trials::{trials, Trial, Writing};

/// What the buffer is filled with before the answers are compared.
const DIRT: u8 = 0xa5;
/// Timed turns of each implementation, unless the trial takes too long.
const TURNS: usize = 1001;
/// A trial that has taken so long has no more turns.
const LONGEST: Duration = Duration::from_secs(20);
/// A turn is repeated calls that take about so long.
const TURN_NANOSECONDS: f64 = 1_000_000.0;

fn main() -> ExitCode {
    let Some((turns, parts)) = arguments() else {
        eprintln!("bench [--turns N] [PART ...]");
        return ExitCode::FAILURE;
    };
    println!(
        "{:<52} {:>8} {:>5} {:>12} {:>12} {:>7} {:>10} {:>10}",
        "median of a call, microseconds",
        "answer",
        "turns",
        "proved",
        "Rust",
        "ratio",
        "ns a unit",
        "Rust"
    );
    for trial in trials() {
        if parts.is_empty() || parts.iter().any(|part| trial.name.contains(part)) {
            report(&trial, turns);
        }
    }
    ExitCode::SUCCESS
}

/// Turns, and parts of the names of the trials to run.
fn arguments() -> Option<(usize, Vec<String>)> {
    let (mut turns, mut parts) = (TURNS, Vec::new());
    let mut arguments = std::env::args().skip(1);
    while let Some(argument) = arguments.next() {
        if argument == "--turns" {
            turns = arguments.next()?.parse().ok().filter(|&turns| turns > 0)?;
        } else if argument.starts_with('-') {
            return None;
        } else {
            parts.push(argument);
        }
    }
    Some((turns, parts))
}

/// Runs a trial and prints its line.
fn report(trial: &Trial, turns: usize) {
    let Answer { number, place } = agreed(trial);
    let (proved, rust) = times(trial, turns);
    let turns = proved.len();
    let (proved, rust) = (median(proved), median(rust));
    print!(
        "{:<52} {:>8} {:>5} {:>12.3} {:>12.3} {:>7.2}",
        trial.name,
        format!("{number} {place}"),
        turns,
        proved / 1000.0,
        rust / 1000.0,
        proved / rust
    );
    if let Some(units) = trial.units {
        let units = units as f64;
        print!(" {:>10.2} {:>10.2}", proved / units, rust / units);
    }
    println!();
}

/// What both give.
fn agreed(trial: &Trial) -> Answer {
    let run = |service: Writing| {
        let mut buffer = vec![DIRT; trial.room];
        let answer = service(&trial.map, &trial.placing, &trial.input, &mut buffer);
        (answer, buffer)
    };
    let (proved, rust) = (run(trial.proved), run(trial.rust));
    assert!(proved == rust, "{}: the answers differ", trial.name);
    proved.0
}

/// The time of a call of each, in nanoseconds, turn after turn.
fn times(trial: &Trial, turns: usize) -> (Vec<f64>, Vec<f64>) {
    let begun = Instant::now();
    let mut buffer = vec![0; trial.room];
    let mut turn = |service: Writing, calls: usize, frames: usize| {
        let mut nanoseconds = 0;
        lower(frames, &mut || {
            let start = Instant::now();
            for _ in 0..calls {
                let (map, placing, input) = black_box((&trial.map, &trial.placing, &trial.input));
                black_box(service(map, placing, input, &mut buffer));
            }
            nanoseconds = start.elapsed().as_nanos();
        });
        nanoseconds as f64 / calls as f64
    };
    let first = turn(trial.proved, 3, 0)
        .max(turn(trial.rust, 3, 0))
        .max(1.0);
    let calls = (TURN_NANOSECONDS / first).ceil() as usize;
    let (mut proved, mut rust) = (Vec::new(), Vec::new());
    for index in 0..turns {
        if index > 0 && begun.elapsed() > LONGEST {
            break;
        }
        if index % 2 == 0 {
            proved.push(turn(trial.proved, calls, index));
            rust.push(turn(trial.rust, calls, index));
        } else {
            rust.push(turn(trial.rust, calls, index));
            proved.push(turn(trial.proved, calls, index));
        }
    }
    (proved, rust)
}

/// Runs something with the stack lower by some frames: where the stack lies
/// changes how fast small copies on it are, so no one place is to be measured.
#[inline(never)]
fn lower(frames: usize, work: &mut dyn FnMut()) {
    let frame = black_box([0u8; 16]);
    if frames == 0 {
        work();
    } else {
        lower(frames - 1, work);
    }
    black_box(frame);
}

fn median(mut times: Vec<f64>) -> f64 {
    times.sort_by(f64::total_cmp);
    times[times.len() / 2]
}
