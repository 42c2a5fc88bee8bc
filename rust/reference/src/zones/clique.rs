//! Cliques: every two vertices are joined.
//!
//! A configuration is the set of the robots; a full clique can't change, so
//! there it is the one arrangement.

use super::line::Line;
use super::{bit, bits, Zone};
use crate::map::VERTICES;
use crate::plan::Step;
use crate::resolving::Mover;
use crate::state::{NOBODY, ROBOTS};

/// Whether there is an edge between every two of the listed vertices.
pub(crate) fn fits(listed: &[u8], joined: &[u128; VERTICES]) -> bool {
    let inside = bits(listed);
    let mut vertices = listed.iter();
    vertices.all(|&vertex| (joined[usize::from(vertex)] | bit(vertex)) & inside == inside)
}

/// The robots of a clique.
pub(crate) enum Clique {
    /// With an empty vertex: the bits of the robots.
    Set(u64),
    /// Without: the robot on each place.
    Full(Line),
}

impl Clique {
    pub fn new(arrangement: &[u8]) -> Clique {
        if arrangement.contains(&NOBODY) {
            Clique::Set(set(&Line::new(arrangement)))
        } else {
            Clique::Full(Line::new(arrangement))
        }
    }

    pub fn is_to_be_filled(&self, size: usize) -> bool {
        matches!(self, Clique::Set(robots) if robots.count_ones() as usize + 1 == size)
    }

    pub fn holds(&self, arrangement: &[u8]) -> bool {
        match self {
            Clique::Set(robots) => set(&Line::new(arrangement)) == *robots,
            Clique::Full(line) => **line == *arrangement,
        }
    }

    pub fn leave(&mut self, robot: u8, place: usize) -> bool {
        let (robots, is_able) = match self {
            Clique::Set(robots) => (*robots, *robots >> robot & 1 == 1),
            Clique::Full(line) => (set(line), line[place] == robot),
        };
        if is_able {
            *self = Clique::Set(robots & !(1 << robot));
        }
        is_able
    }

    pub fn enter(&mut self, step: &Step, place: usize) -> bool {
        let Clique::Set(robots) = *self else {
            return false;
        };
        if step.behind != NOBODY {
            return false;
        }
        let after = robots | 1 << step.robot;
        let Some(follow) = step.follow else {
            *self = Clique::Set(after);
            return true;
        };
        let are_robots = follow.iter().all(|&robot| usize::from(robot) < ROBOTS);
        let is_met = are_robots && set(follow) == after && follow[place] == step.robot;
        if is_met {
            *self = Clique::Full(Line::new(follow));
        }
        is_met
    }
}

/// The bits of some robots.
fn set(robots: &[u8]) -> u64 {
    robots.iter().fold(0, |all, &robot| all | 1 << robot)
}

/// Brings a robot of a clique to the slot it leaves.
pub(crate) fn make_exit(mover: &mut Mover, zone: &Zone, robot: usize, from: usize) {
    if mover.state().slot_of(robot) != from {
        vacate(mover, zone, from);
        mover.go(robot, from);
    }
}

/// Empties the slot that a step enters; a clique to be filled is brought to
/// the follow list's arrangement.
pub(crate) fn make_entry(mover: &mut Mover, zone: &Zone, step: &Step) {
    match step.follow {
        Some(follow) => arrange(mover, zone, follow, step.robot),
        None => vacate(mover, zone, step.to),
    }
}

/// Brings a clique to its goals.
pub(crate) fn bring_home(mover: &mut Mover, zone: &Zone, wanted: &[u8; VERTICES]) {
    arrange(mover, zone, &wanted[zone.slots()], NOBODY);
}

/// Sends a robot on a slot to the earliest empty one.
fn vacate(mover: &mut Mover, zone: &Zone, slot: usize) {
    let robot = mover.state().robot_at(slot);
    if robot != NOBODY {
        let empty = earliest_empty(mover, zone);
        mover.go(usize::from(robot), empty);
    }
}

fn earliest_empty(mover: &Mover, zone: &Zone) -> usize {
    let empty = zone.bits() & !mover.state().taken_in(zone);
    empty.trailing_zeros() as usize
}

/// Brings the robots of a clique to an arrangement, leaving out one robot
/// that isn't inside.
fn arrange(mover: &mut Mover, zone: &Zone, wanted: &[u8], left_out: u8) {
    let mut off_target = 0u64;
    let mut unmet = 0u128;
    for (slot, &robot) in zone.slots().zip(wanted) {
        if robot != NOBODY && robot != left_out && mover.state().robot_at(slot) != robot {
            off_target |= 1 << robot;
            unmet |= 1 << slot;
        }
    }
    while off_target != 0 {
        let open = unmet & !mover.state().taken_in(zone);
        if open != 0 {
            let slot = open.trailing_zeros() as usize;
            let robot = wanted[slot - zone.first];
            mover.go(usize::from(robot), slot);
            off_target &= !(1 << robot);
            unmet &= !(1 << slot);
        } else {
            let robot = off_target.trailing_zeros() as usize;
            let empty = earliest_empty(mover, zone);
            mover.go(robot, empty);
        }
    }
}
