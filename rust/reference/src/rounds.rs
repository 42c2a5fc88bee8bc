//! Rounds: when each move of a list can be made at the earliest.

use crate::answer::Refusal;
use crate::blocks::{Kind, Writer};
use crate::map::{Map, VERTICES};
use crate::moves::{self, Move};
use crate::placing::Placing;
use crate::state::ROBOTS;

/// Writes the round sheet of a move list; gives the bytes written.
pub(crate) fn rounds(
    map: &Map,
    placing: &Placing,
    file: &[u8],
    buffer: &mut [u8],
) -> Result<usize, Refusal> {
    let mut sheet = Writer::new(Kind::RoundSheet, buffer);
    let mut last_of = [0u16; ROBOTS];
    let mut left_in = [0u16; VERTICES];
    let moves = moves::replay(map, placing, file, |_, Move { robot, from, to }| {
        let round = left_in[to].max(last_of[robot] + 1);
        last_of[robot] = round;
        left_in[from] = round;
        sheet.push(&round.to_be_bytes());
    })?;
    sheet.finish(moves)
}
