//! The state: which robot stands where.

use crate::map::VERTICES;
use crate::zones::Zone;

/// Most robots on a map.
pub(crate) const ROBOTS: usize = 64;
/// Stands in the place of a robot number where there is no robot.
pub(crate) const NOBODY: u8 = 255;

/// The robot on each slot and the slot of each robot.
pub(crate) struct State {
    robot_at: [u8; VERTICES],
    slot_of: [u8; ROBOTS],
    /// The bits of the slots with a robot.
    taken: u128,
}

impl State {
    /// The state with each robot on its slot.
    pub fn new(slots: &[u8]) -> State {
        let mut state = State {
            robot_at: [NOBODY; VERTICES],
            slot_of: [0; ROBOTS],
            taken: 0,
        };
        for (robot, &slot) in slots.iter().enumerate() {
            state.robot_at[usize::from(slot)] = robot as u8;
            state.slot_of[robot] = slot;
            state.taken |= 1 << slot;
        }
        state
    }

    /// The robot on a slot, or nobody.
    pub fn robot_at(&self, slot: usize) -> u8 {
        self.robot_at[slot]
    }

    /// The slot of a robot.
    pub fn slot_of(&self, robot: usize) -> usize {
        usize::from(self.slot_of[robot])
    }

    /// Per robot its slot.
    pub fn slots(&self) -> &[u8; ROBOTS] {
        &self.slot_of
    }

    pub fn is_taken(&self, slot: usize) -> bool {
        self.taken >> slot & 1 == 1
    }

    /// The bits of a zone's slots with a robot.
    pub fn taken_in(&self, zone: &Zone) -> u128 {
        self.taken & zone.bits()
    }

    /// The robot on each of a zone's places.
    pub fn arrangement(&self, zone: &Zone) -> &[u8] {
        &self.robot_at[zone.slots()]
    }

    /// Takes a robot to an empty slot and leaves its own empty.
    #[inline]
    pub fn advance(&mut self, robot: usize, to: usize) {
        let from = self.slot_of(robot);
        self.robot_at[from] = NOBODY;
        self.robot_at[to] = robot as u8;
        self.slot_of[robot] = to as u8;
        self.taken ^= 1 << from | 1 << to;
    }
}
