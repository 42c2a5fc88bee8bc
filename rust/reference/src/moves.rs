//! The move list file: replaying its moves.

use crate::answer::Refusal;
use crate::blocks::{self, Kind};
use crate::map::Map;
use crate::placing::Placing;
use crate::state::State;

/// One legal move. Its ends are vertices.
pub(crate) struct Move {
    pub robot: usize,
    pub from: usize,
    pub to: usize,
}

/// Replays a move list from the starts to the goals; gives its move count.
///
/// Each legal move is handed over with the state before it.
pub(crate) fn replay(
    map: &Map,
    placing: &Placing,
    file: &[u8],
    mut accept: impl FnMut(&State, Move),
) -> Result<u16, Refusal> {
    let mut payload = blocks::open(Kind::MoveList, file)?;
    let moves = payload.number().ok_or(Kind::MoveList.refuse(5, 0))?;
    let mut state = State::new(placing.starts());

    for number in 0..usize::from(moves) {
        let refusal = |digit| Err(Kind::MoveList.refuse(digit, number));
        let Some([robot, from, to]) = payload.array() else {
            return refusal(5);
        };
        let [robot, from, to] = [robot, from, to].map(usize::from);
        let vertices = map.vertices();
        if robot >= placing.robots() || from >= vertices || to >= vertices {
            return refusal(6);
        }
        if !map.are_joined(from, to) {
            return refusal(7);
        }
        let end = map.slot_of(to);
        if state.slot_of(robot) != map.slot_of(from) || state.is_taken(end) {
            return refusal(8);
        }
        accept(&state, Move { robot, from, to });
        state.advance(robot, end);
    }

    if !payload.is_finished() {
        return Err(Kind::MoveList.refuse(5, usize::from(moves)));
    }
    let mut robots = placing.goals().iter().zip(state.slots());
    match robots.position(|(goal, slot)| goal != slot) {
        Some(robot) => Err(Refusal::new(51, robot)),
        None => Ok(moves),
    }
}
