//! Generated files against checks written plainly from the table: all of the
//! map, the placing and the move list, and the blocks of the plan.
#![forbid(unsafe_code)]

use std::collections::BTreeMap;

use cases::{implementations, Generator, Outcome, Service};
use writing::{Step, Walk, Yard, CLIQUE, HALL, MAP, MOVE_LIST, PLACING, PLAN, RING, STACK};

/// A returned number and its place.
type Refusal = (u32, usize);

/// The payload of a file.
fn payload(kind: u8, most: usize, file: &[u8]) -> Result<Vec<u8>, Refusal> {
    let number = |digit: u32| u32::from(kind) * 10 + digit;
    if file.is_empty() || file.len() % 512 != 0 || file.len() > most * 512 {
        return Err((number(1), 0));
    }
    let mut payload = Vec::new();
    for index in 0..file.len() / 512 {
        let block = &file[index * 512..index * 512 + 512];
        let word = |at: usize| usize::from(block[at]) * 256 + usize::from(block[at + 1]);
        if usize::from(writing::checksum(&block[..510])) != word(510) {
            return Err((number(2), index));
        }
        if block[0] != kind || block[1] != 0 || word(2) != index {
            return Err((number(3), index));
        }
        let fill = word(4);
        let is_last = (index + 1) * 512 == file.len();
        if fill > 504 || fill == 0 || !is_last && fill != 504 {
            return Err((number(4), index));
        }
        for &byte in &block[6 + fill..510] {
            if byte != 0 {
                return Err((number(4), index));
            }
        }
        payload.extend_from_slice(&block[6..6 + fill]);
    }
    Ok(payload)
}

fn map(file: &[u8]) -> Result<Yard, Refusal> {
    let bytes = payload(MAP, 9, file)?;
    let get = |at: usize| bytes.get(at).copied().ok_or((15, at));
    let mut yard = Yard {
        points: get(0)?,
        ..Yard::default()
    };
    if yard.points == 0 || yard.points > 128 {
        return Err((16, 0));
    }
    let zones = get(1)?;
    if zones == 0 || zones > 64 {
        return Err((16, 1));
    }
    let mut at = 2;
    let mut listed = Vec::new();
    for _ in 0..zones {
        let kind = get(at)?;
        if kind == 0 || kind > 4 {
            return Err((16, at));
        }
        let size = get(at + 1)?;
        if size == 0 || kind == RING && size < 3 {
            return Err((16, at + 1));
        }
        at += 2;
        let mut points = Vec::new();
        for _ in 0..size {
            let point = get(at)?;
            if point >= yard.points || listed.contains(&point) {
                return Err((17, at));
            }
            listed.push(point);
            points.push(point);
            at += 1;
        }
        yard.zones.push((kind, points));
    }
    for point in 0..yard.points {
        if !listed.contains(&point) {
            return Err((17, at));
        }
    }
    if bytes.len() < at + 2 {
        return Err((15, at));
    }
    let edges = usize::from(get(at)?) * 256 + usize::from(get(at + 1)?);
    if edges > 2048 {
        return Err((16, at));
    }
    at += 2;
    for _ in 0..edges {
        let edge = (get(at)?, get(at + 1)?);
        if edge.0 >= edge.1 || edge.1 >= yard.points {
            return Err((18, at));
        }
        if yard.edges.last().is_some_and(|&last| last >= edge) {
            return Err((18, at));
        }
        yard.edges.push(edge);
        at += 2;
    }
    if bytes.len() > at {
        return Err((15, at));
    }
    for (zone, (kind, points)) in yard.zones.iter().enumerate() {
        if !is_of_kind(&yard, *kind, points) {
            return Err((19, zone));
        }
    }
    Ok(yard)
}

fn is_of_kind(yard: &Yard, kind: u8, points: &[u8]) -> bool {
    let are_joined = |a: u8, b: u8| yard.edges.contains(&(a.min(b), a.max(b)));
    for (i, &a) in points.iter().enumerate() {
        for (j, &b) in points.iter().enumerate().skip(i + 1) {
            let is_right = match kind {
                STACK | HALL => are_joined(a, b) == (j == i + 1),
                CLIQUE => are_joined(a, b),
                _ => are_joined(a, b) == (j == i + 1 || (i == 0 && j == points.len() - 1)),
            };
            if !is_right {
                return false;
            }
        }
        if kind == STACK && i > 0 {
            for other in 0..yard.points {
                if !points.contains(&other) && are_joined(a, other) {
                    return false;
                }
            }
        }
    }
    true
}

fn placing(yard: &mut Yard, file: &[u8]) -> Result<(), Refusal> {
    let bytes = payload(PLACING, 1, file)?;
    let get = |at: usize| bytes.get(at).copied().ok_or((25, at));
    let carts = get(0)?;
    if carts > 64 || carts > yard.points {
        return Err((26, 0));
    }
    for cart in 0..usize::from(carts) {
        let at = 1 + 2 * cart;
        let start = get(at)?;
        if start >= yard.points || yard.carts.iter().any(|other| other.0 == start) {
            return Err((27, at));
        }
        let goal = get(at + 1)?;
        if goal >= yard.points || yard.carts.iter().any(|other| other.1 == goal) {
            return Err((28, at + 1));
        }
        yard.carts.push((start, goal));
    }
    let end = 1 + 2 * usize::from(carts);
    if bytes.len() > end {
        return Err((25, end));
    }
    Ok(())
}

/// The moves of a list and the steps drawn from it.
fn list(yard: &Yard, file: &[u8]) -> Result<(Vec<[u8; 3]>, Vec<Step>), Refusal> {
    let bytes = payload(MOVE_LIST, 128, file)?;
    if bytes.len() < 2 {
        return Err((45, 0));
    }
    let count = usize::from(bytes[0]) * 256 + usize::from(bytes[1]);
    let mut walk = Walk::new(yard);
    let (mut moves, mut steps) = (Vec::new(), Vec::new());
    for number in 0..count {
        let at = 2 + 3 * number;
        if bytes.len() < at + 3 {
            return Err((45, number));
        }
        let [cart, from, to] = [bytes[at], bytes[at + 1], bytes[at + 2]];
        if usize::from(cart) >= yard.carts.len() || from >= yard.points || to >= yard.points {
            return Err((46, number));
        }
        if !walk.neighbours(from).contains(&to) {
            return Err((47, number));
        }
        if walk.points()[usize::from(cart)] != from || !walk.is_empty(to) {
            return Err((48, number));
        }
        steps.extend(walk.make([cart, from, to]));
        moves.push([cart, from, to]);
    }
    if bytes.len() > 2 + 3 * count {
        return Err((45, count));
    }
    for (cart, (&(_, goal), &point)) in yard.carts.iter().zip(walk.points()).enumerate() {
        if goal != point {
            return Err((51, cart));
        }
    }
    Ok((moves, steps))
}

/// The bytes of an answer, or 61 or 60.
fn answered(file: Vec<u8>, most: usize, room: usize) -> Result<Vec<u8>, Refusal> {
    if file.len() > most * 512 {
        Err((61, 0))
    } else if file.len() > room {
        Err((60, 0))
    } else {
        Ok(file)
    }
}

/// The rounds of moves, kept for each cart and each point left.
fn sheet(moves: &[[u8; 3]]) -> Vec<u8> {
    let mut payload = (moves.len() as u16).to_be_bytes().to_vec();
    let (mut of_cart, mut of_point) = (BTreeMap::new(), BTreeMap::new());
    for &[cart, from, to] in moves {
        let mut round = 1u16;
        if let Some(before) = of_cart.get(&cart) {
            round = round.max(before + 1);
        }
        if let Some(&left) = of_point.get(&to) {
            round = round.max(left);
        }
        of_cart.insert(cart, round);
        of_point.insert(from, round);
        payload.extend_from_slice(&round.to_be_bytes());
    }
    writing::file(writing::ROUND_SHEET, &payload)
}

#[test]
fn generated_files_are_refused_as_the_table_says() {
    let implementation = &implementations()[0];
    let mut numbers: BTreeMap<u32, usize> = BTreeMap::new();
    let mut generators = [Generator::new(21), Generator::small(22)];
    for index in 0..120_000 {
        let case = generators[usize::from(index % 4 != 0)].next_case();
        let Outcome { answer, buffer } = Outcome::of(&case, implementation);
        let found = (answer.number, answer.place as usize);
        let opened = map(&case.map).and_then(|mut yard| {
            placing(&mut yard, &case.placing)?;
            Ok(yard)
        });
        let expected = opened.and_then(|yard| match case.service {
            Service::Judge | Service::Resolve => payload(PLAN, 64, &case.input).map(|_| None),
            Service::Draw => {
                let (_, steps) = list(&yard, &case.input)?;
                answered(writing::plan(&steps), 64, case.room).map(Some)
            }
            Service::Rounds => {
                let (moves, _) = list(&yard, &case.input)?;
                answered(sheet(&moves), 128, case.room).map(Some)
            }
        });
        match expected {
            Err(refusal) => {
                assert_eq!(found, refusal, "{case}");
                *numbers.entry(refusal.0).or_default() += 1;
            }
            Ok(Some(written)) => {
                assert_eq!(found, (0, written.len()), "{case}");
                assert!(buffer[..written.len()] == written, "{case}");
                *numbers.entry(0).or_default() += 1;
            }
            Ok(None) => assert!(
                matches!(found.0, 0 | 35..=39 | 50 | 60 | 61),
                "{found:?} {case}"
            ),
        }
    }
    println!("{numbers:?}");
    let least = numbers.values().min();
    assert!(numbers.len() == 33 && least >= Some(&20), "{numbers:?}");
}
