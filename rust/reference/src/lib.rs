#![forbid(unsafe_code)]
//! Zoned cart routing: judging, resolving, drawing and rounds.
//!
//! Each service takes whole block files as byte slices. A refusal leaves the
//! buffer all zero; a success leaves zero after the bytes written.

mod answer;
mod blocks;
mod drawing;
mod listing;
mod map;
mod moves;
mod placing;
mod plan;
mod resolving;
mod rounds;
mod state;
mod zones;

pub use answer::Answer;
pub use blocks::checksum;
pub use listing::listing;

use answer::{settle, Refusal};
use map::Map;
use placing::Placing;

/// Says whether a plan is cleared. Nothing is written.
pub fn judge(map: &[u8], placing: &[u8], plan: &[u8]) -> Answer {
    settle(&mut [], |_| {
        let (map, placing) = open(map, placing)?;
        plan::walk(&map, &placing, plan, |_| ())?;
        Ok(0)
    })
}

/// Writes the move list that carries a plan out.
pub fn resolve(map: &[u8], placing: &[u8], plan: &[u8], buffer: &mut [u8]) -> Answer {
    settle(buffer, |buffer| {
        let (map, placing) = open(map, placing)?;
        resolving::resolve(&map, &placing, plan, buffer)
    })
}

/// Writes the plan that a move list carries out.
pub fn draw(map: &[u8], placing: &[u8], moves: &[u8], buffer: &mut [u8]) -> Answer {
    settle(buffer, |buffer| {
        let (map, placing) = open(map, placing)?;
        drawing::draw(&map, &placing, moves, buffer)
    })
}

/// Writes the round of each move of a move list.
pub fn rounds(map: &[u8], placing: &[u8], moves: &[u8], buffer: &mut [u8]) -> Answer {
    settle(buffer, |buffer| {
        let (map, placing) = open(map, placing)?;
        rounds::rounds(&map, &placing, moves, buffer)
    })
}

/// Reads the two files that every service begins with.
fn open(map: &[u8], placing: &[u8]) -> Result<(Map, Placing), Refusal> {
    let map = Map::read(map)?;
    let placing = Placing::read(&map, placing)?;
    Ok((map, placing))
}
