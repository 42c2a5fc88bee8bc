//! The move list and the round sheet.

use crate::blocks::{self, FileKind};
use crate::fault::Fault;
use crate::fields::Fields;
use crate::map::Map;
use crate::placing::Placing;
use crate::words::count;

/// A move of a robot from a vertex to another.
#[derive(Clone, Copy, Debug, PartialEq, Eq)]
pub struct Move {
    pub robot: u8,
    pub from: u8,
    pub to: u8,
}

/// The payload of a move list.
pub fn payload(moves: &[Move]) -> Vec<u8> {
    let mut payload = (moves.len() as u16).to_be_bytes().to_vec();
    payload.extend(moves.iter().flat_map(|m| [m.robot, m.from, m.to]));
    payload
}

/// The moves of a move list file, legal or not.
pub fn read(file: &[u8]) -> Result<Vec<Move>, Fault> {
    let payload = blocks::payload(FileKind::MoveList, file)?;
    let fields = &mut Fields::new(&payload);
    let moves = count_of(fields)?;
    let moves: Result<Vec<Move>, Fault> =
        (0..moves).map(|number| one_move(fields, number)).collect();
    let moves = moves?;
    check_surplus(fields, moves.len())?;
    Ok(moves)
}

/// The rounds of a good round sheet.
pub fn rounds(file: &[u8]) -> Result<Vec<u16>, Fault> {
    let payload = blocks::payload(FileKind::RoundSheet, file)?;
    let fields = &mut Fields::new(&payload);
    let moves = fields.word().unwrap_or(0);
    Ok((0..moves).map_while(|_| fields.word()).collect())
}

fn count_of(fields: &mut Fields) -> Result<usize, Fault> {
    let words = || "MOVES ends in its move count".to_string();
    let count = fields.word();
    count
        .map(usize::from)
        .ok_or_else(|| FileKind::MoveList.fault(5, 0, words()))
}

fn one_move(fields: &mut Fields, number: usize) -> Result<Move, Fault> {
    let left = fields.left();
    match fields.bytes(3) {
        Some(&[robot, from, to]) => Ok(Move { robot, from, to }),
        _ => {
            let words = format!("move {number}: MOVES ends in it: it has {left} of three bytes");
            Err(FileKind::MoveList.fault(5, number, words))
        }
    }
}

fn check_surplus(fields: &Fields, moves: usize) -> Result<(), Fault> {
    if fields.left() == 0 {
        return Ok(());
    }
    let words = format!(
        "MOVES goes on after its {}: {} too many",
        count(moves, "move"),
        count(fields.left(), "byte")
    );
    Err(FileKind::MoveList.fault(5, moves, words))
}

/// Replays a move list over an accepted map and placing; gives its moves, or
/// the first fault.
pub fn replay(map: &Map, placing: &Placing, file: &[u8]) -> Result<Vec<Move>, Fault> {
    let payload = blocks::payload(FileKind::MoveList, file)?;
    let fields = &mut Fields::new(&payload);
    let count = count_of(fields)?;
    let mut vertex_of: Vec<u8> = placing.robots.iter().map(|robot| robot.0).collect();
    let mut moves = Vec::new();
    for number in 0..count {
        let next = one_move(fields, number)?;
        if let Some((digit, words)) = illegal(map, placing, &vertex_of, next) {
            let words = format!("move {number}: {words}");
            return Err(FileKind::MoveList.fault(digit, number, words));
        }
        vertex_of[usize::from(next.robot)] = next.to;
        moves.push(next);
    }
    check_surplus(fields, count)?;
    let mut ends = vertex_of.iter().zip(&placing.robots);
    match ends.position(|(end, (_, goal))| end != goal) {
        None => Ok(moves),
        Some(robot) => {
            let words = format!(
                "the list ends with cart {robot} on point {}, but its goal is point {}",
                vertex_of[robot], placing.robots[robot].1
            );
            Err(Fault::new(51, robot, words))
        }
    }
}

/// Why a move isn't legal: the last digit of its number, and words.
fn illegal(map: &Map, placing: &Placing, vertex_of: &[u8], next: Move) -> Option<(u32, String)> {
    let Move { robot, from, to } = next;
    if usize::from(robot) >= vertex_of.len() {
        let words = format!("there is no cart {robot}: {}", placing.robots_in_words());
        return Some((6, words));
    }
    let lost = [from, to].into_iter().find(|&end| end >= map.vertices);
    if let Some(end) = lost {
        let words = format!("there is no point {end}: {}", map.vertices_in_words());
        return Some((6, words));
    }
    if !map.are_joined(from, to) {
        let words = format!("there is no track between points {from} and {to}");
        return Some((7, words));
    }
    let stands = vertex_of[usize::from(robot)];
    if stands != from {
        let words = format!("cart {robot} isn't on point {from}: it is on point {stands}");
        return Some((8, words));
    }
    let other = vertex_of.iter().position(|&vertex| vertex == to)?;
    let words = format!("cart {robot} can't go to point {to}: cart {other} is on it");
    Some((8, words))
}
