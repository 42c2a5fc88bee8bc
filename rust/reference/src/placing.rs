//! The placing file: where each robot starts and where it is to end.

use crate::answer::Refusal;
use crate::blocks::{self, Kind};
use crate::map::{Map, VERTICES};
use crate::state::{NOBODY, ROBOTS};

/// An accepted placing. Starts and goals are held as slots.
pub(crate) struct Placing {
    robots: usize,
    starts: [u8; ROBOTS],
    goals: [u8; ROBOTS],
    /// Per slot the robot whose goal it is.
    wanted: [u8; VERTICES],
}

impl Placing {
    /// Reads a placing file.
    pub fn read(map: &Map, file: &[u8]) -> Result<Placing, Refusal> {
        let mut payload = blocks::open(Kind::Placing, file)?;
        let robots = payload.byte().ok_or(Kind::Placing.refuse(5, 0))?;
        let robots = usize::from(robots);
        if robots > ROBOTS.min(map.vertices()) {
            return Err(Kind::Placing.refuse(6, 0));
        }
        let mut placing = Placing {
            robots,
            starts: [0; ROBOTS],
            goals: [0; ROBOTS],
            wanted: [NOBODY; VERTICES],
        };
        let mut used = [0u128; 2];
        for robot in 0..robots {
            for (digit, used) in [7, 8].into_iter().zip(&mut used) {
                let offset = payload.offset();
                let vertex = payload.byte().ok_or(Kind::Placing.refuse(5, offset))?;
                let vertex = usize::from(vertex);
                if vertex >= map.vertices() || *used >> vertex & 1 == 1 {
                    return Err(Kind::Placing.refuse(digit, offset));
                }
                *used |= 1 << vertex;
                let slot = map.slot_of(vertex);
                if digit == 7 {
                    placing.starts[robot] = slot as u8;
                } else {
                    placing.goals[robot] = slot as u8;
                    placing.wanted[slot] = robot as u8;
                }
            }
        }
        if !payload.is_finished() {
            return Err(Kind::Placing.refuse(5, payload.offset()));
        }
        Ok(placing)
    }

    /// The number of robots.
    pub fn robots(&self) -> usize {
        self.robots
    }

    /// Per robot its start, as a slot.
    pub fn starts(&self) -> &[u8] {
        &self.starts[..self.robots]
    }

    /// Per robot its goal, as a slot.
    pub fn goals(&self) -> &[u8] {
        &self.goals[..self.robots]
    }

    /// Per slot the robot whose goal it is, or nobody.
    pub fn wanted(&self) -> &[u8; VERTICES] {
        &self.wanted
    }
}
