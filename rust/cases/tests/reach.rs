//! The generator reaches every number, and deep cases.
#![forbid(unsafe_code)]

use std::collections::{BTreeMap, BTreeSet};

use cases::{examine, implementations, Case, Generator, Service};
use writing::{Walk, Yard, CLIQUE, RING};

const FILES: [u32; 17] = [
    11, 12, 13, 14, 15, 16, 17, 18, 19, 21, 22, 23, 24, 25, 26, 27, 28,
];
const PLAN: [u32; 10] = [31, 32, 33, 34, 35, 36, 37, 38, 39, 50];
const LIST: [u32; 9] = [41, 42, 43, 44, 45, 46, 47, 48, 51];

/// The yard that good files hold.
fn yard(case: &Case) -> Yard {
    let map = writing::payload(&case.map);
    let mut yard = Yard {
        points: map[0],
        ..Yard::default()
    };
    let mut at = 2;
    for _ in 0..map[1] {
        let end = at + 2 + usize::from(map[at + 1]);
        yard.zones.push((map[at], map[at + 2..end].to_vec()));
        at = end;
    }
    let pairs = |bytes: &[u8]| {
        bytes
            .chunks_exact(2)
            .map(|pair| (pair[0], pair[1]))
            .collect()
    };
    yard.edges = pairs(&map[at + 2..]);
    yard.carts = pairs(&writing::payload(&case.placing)[1..]);
    yard
}

#[test]
fn every_number_and_deep_cases_are_reached() {
    let mut generator = Generator::new(11);
    let implementations = implementations();
    let mut numbers: BTreeMap<Service, BTreeSet<u32>> = BTreeMap::new();
    let (mut lists, mut long_lists, mut large_plans, mut large_yards) = (0, 0, 0, 0);
    let (mut filled, mut filled_rings, mut ring_entries, mut late_refusals) = (0, 0, 0, 0);
    for _ in 0..40_000 {
        let case = generator.next_case();
        let outcome = examine(&case, &implementations)
            .unwrap_or_else(|violation| panic!("{}\n{}", violation.fault, violation.case));
        let answer = outcome.answer;
        numbers
            .entry(case.service)
            .or_default()
            .insert(answer.number);
        let is_late = matches!(answer.number, 36..=39 | 46..=48) && answer.place >= 50;
        late_refusals += usize::from(is_late);
        if case.service != Service::Resolve || answer.number != 0 {
            continue;
        }
        lists += 1;
        large_plans += usize::from(case.input.len() >= 32 * 512);
        let yard = yard(&case);
        large_yards += usize::from(yard.points > 100 && yard.carts.len() > 30);
        let moves = writing::moves(&outcome.buffer[..answer.place as usize]);
        long_lists += usize::from(moves.len() >= 5000);
        let mut walk = Walk::new(&yard);
        for &next in &moves {
            if let Some(step) = walk.make(next) {
                let (kind, listed) = &yard.zones[walk.zone_of(step.to)];
                let is_full = listed.iter().all(|&point| !walk.is_empty(point));
                filled += usize::from(*kind == CLIQUE && is_full && listed.len() > 1);
                filled_rings += usize::from(*kind == RING && is_full);
                ring_entries += usize::from(*kind == RING);
            }
        }
    }
    println!(
        "lists {lists}, long {long_lists}, large plans {large_plans}, large yards {large_yards}"
    );
    println!("filled cliques {filled}, ring entries {ring_entries}, filled rings {filled_rings}");
    println!("refusals after 50 steps or moves {late_refusals}");
    for (service, reached) in &numbers {
        let mut expected = BTreeSet::from([0]);
        expected.extend(FILES);
        match service {
            Service::Judge => expected.extend(PLAN),
            Service::Resolve => expected.extend(PLAN.into_iter().chain([60, 61])),
            Service::Draw => expected.extend(LIST.into_iter().chain([60, 61])),
            Service::Rounds => expected.extend(LIST.into_iter().chain([60])),
        }
        assert_eq!(*reached, expected, "{service:?}");
    }
    assert!(lists >= 2000 && long_lists >= 20 && large_plans >= 20 && large_yards >= 50);
    assert!(filled >= 1000 && ring_entries >= 2000 && filled_rings >= 50);
    assert!(late_refusals >= 200);
}

#[test]
fn a_case_is_read_back_from_its_text() {
    let mut generator = Generator::new(3);
    for _ in 0..300 {
        let case = generator.next_case();
        assert_eq!(case.to_string().parse(), Ok(case));
    }
    assert!("judge - - - x".parse::<Case>().is_err());
    assert!("judge - 0 - 1".parse::<Case>().is_err());
    assert!("guess - - - 1".parse::<Case>().is_err());
    assert!("judge - - -".parse::<Case>().is_err());
}

#[test]
fn one_seed_gives_the_same_cases_again() {
    let (mut one, mut other) = (Generator::new(5), Generator::new(5));
    for _ in 0..200 {
        assert_eq!(one.next_case(), other.next_case());
    }
}

#[test]
fn small_cases_have_few_blocks() {
    let mut generator = Generator::small(5);
    let mut numbers = BTreeSet::new();
    for _ in 0..20_000 {
        let case = generator.next_case();
        for file in [&case.map, &case.placing, &case.input] {
            assert!(file.len() <= 4 * 512);
        }
        assert!(case.room < 2048);
        let outcome = examine(&case, &implementations())
            .unwrap_or_else(|violation| panic!("{}\n{}", violation.fault, violation.case));
        numbers.insert(outcome.answer.number);
    }
    let mut expected = BTreeSet::from([0, 60, 61]);
    expected.extend(FILES.into_iter().chain(PLAN).chain(LIST));
    assert_eq!(numbers, expected);
}
