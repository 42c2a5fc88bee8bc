//! Resolving: the moves that carry a plan out.

use crate::answer::Refusal;
use crate::blocks::{Kind, Writer};
use crate::map::Map;
use crate::placing::Placing;
use crate::plan;
use crate::state::State;

/// Makes moves from the starts on and writes each into the answer.
pub(crate) struct Mover<'a> {
    map: &'a Map,
    state: State,
    list: Writer<'a>,
    moves: u64,
}

impl Mover<'_> {
    pub fn state(&self) -> &State {
        &self.state
    }

    /// Moves a robot to an empty slot beside its own.
    #[inline]
    pub fn go(&mut self, robot: usize, to: usize) {
        let from = self.map.vertex_at(self.state.slot_of(robot));
        self.list.push(&[robot as u8, from, self.map.vertex_at(to)]);
        self.moves += 1;
        self.state.advance(robot, to);
    }
}

/// Writes the move list of a plan; gives the bytes written.
///
/// Once the list is too long for its blocks no more moves are worked out: the
/// plan alone decides what is returned.
pub(crate) fn resolve(
    map: &Map,
    placing: &Placing,
    file: &[u8],
    buffer: &mut [u8],
) -> Result<usize, Refusal> {
    let mut mover = Mover {
        map,
        state: State::new(placing.starts()),
        list: Writer::new(Kind::MoveList, buffer),
        moves: 0,
    };
    let zone_at = |slot: usize| &map.zones()[map.zone_of(usize::from(map.vertex_at(slot)))];
    plan::walk(map, placing, file, |step| {
        if !mover.list.is_over() {
            let robot = usize::from(step.robot);
            zone_at(step.from).make_exit(&mut mover, robot, step.from);
            zone_at(step.to).make_entry(&mut mover, step);
            mover.go(robot, step.to);
        }
    })?;
    if !mover.list.is_over() {
        for zone in map.zones() {
            zone.bring_home(&mut mover, placing.wanted());
        }
    }
    mover.list.finish(mover.moves as u16)
}
