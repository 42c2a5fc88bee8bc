//! The listing program's text.

use std::fmt::Write;

use crate::answer::Answer;
use crate::blocks::{self, Kind};
use crate::{resolve, rounds};

/// Room for the longest answer.
const ROOM: usize = 65_536;

/// The moves of a resolved plan with their rounds, or the refusal.
pub fn listing(map: &[u8], placing: &[u8], plan: &[u8]) -> String {
    let mut list = vec![0; ROOM];
    let mut sheet = vec![0; ROOM];
    let listed = filled(&mut list, |room| resolve(map, placing, plan, room)).and_then(|list| {
        let sheet = filled(&mut sheet, |room| rounds(map, placing, list, room))?;
        Ok((list, sheet))
    });
    match listed {
        Ok((list, sheet)) => lines(list, sheet).unwrap_or_default(),
        Err(Answer { number, place }) => format!("refused {number} {place}\n"),
    }
}

/// The bytes that a service writes, or its refusal.
fn filled(room: &mut [u8], service: impl FnOnce(&mut [u8]) -> Answer) -> Result<&[u8], Answer> {
    let answer = service(room);
    if answer.number == 0 {
        Ok(&room[..answer.place as usize])
    } else {
        Err(answer)
    }
}

/// A header with the move count, then a line for each move.
fn lines(list: &[u8], sheet: &[u8]) -> Option<String> {
    let mut list = blocks::open(Kind::MoveList, list).ok()?;
    let mut sheet = blocks::open(Kind::RoundSheet, sheet).ok()?;
    let moves = list.number()?;
    sheet.number()?;
    let mut text = format!("moves {moves}\n");
    for _ in 0..moves {
        let [robot, from, to] = list.array()?;
        let round = sheet.number()?;
        writeln!(text, "{robot} {from} {to} {round}").ok()?;
    }
    Some(text)
}
