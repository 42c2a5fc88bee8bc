//! Rings: neighbours in listed order are joined, and last to first.
//!
//! A configuration is the cyclic order of the robots; a full ring can't turn,
//! so there it is the one arrangement.

use super::line::Line;
use super::row::{bring_lane_home, Lane};
use super::{bit, bits, Zone};
use crate::map::VERTICES;
use crate::plan::Step;
use crate::resolving::Mover;
use crate::state::{State, NOBODY};

/// Whether neighbours round the listed vertices are joined, and no others.
pub(crate) fn fits(listed: &[u8], joined: &[u128; VERTICES]) -> bool {
    let inside = bits(listed);
    let size = listed.len();
    listed.iter().enumerate().all(|(place, &vertex)| {
        let forward = listed[(place + 1) % size];
        let backward = listed[(place + size - 1) % size];
        joined[usize::from(vertex)] & inside == bit(forward) | bit(backward)
    })
}

/// The robots of a ring, going forward.
pub(crate) enum Ring {
    /// With an empty vertex: from any robot on.
    CyclicOrder(Line),
    /// Without: the robot on each place.
    Full(Line),
}

impl Ring {
    pub fn new(arrangement: &[u8]) -> Ring {
        let line = Line::new(arrangement);
        if line.len() == arrangement.len() {
            Ring::Full(line)
        } else {
            Ring::CyclicOrder(line)
        }
    }

    pub fn holds(&self, arrangement: &[u8]) -> bool {
        match self {
            Ring::Full(line) => **line == *arrangement,
            Ring::CyclicOrder(line) => {
                let mut present = arrangement.iter().filter(|&&robot| robot != NOBODY);
                let Some(&robot) = present.clone().next() else {
                    return line.is_empty();
                };
                let Some(index) = line.position(robot) else {
                    return false;
                };
                let (later, first) = line.split_at(index);
                let mut turned = first.iter().chain(later);
                turned.all(|robot| present.next() == Some(robot)) && present.next().is_none()
            }
        }
    }

    pub fn leave(&mut self, robot: u8, place: usize) -> bool {
        match self {
            Ring::CyclicOrder(line) => {
                let Some(index) = line.position(robot) else {
                    return false;
                };
                line.remove(index);
            }
            Ring::Full(line) => {
                if line[place] != robot {
                    return false;
                }
                line.remove(place);
                *self = Ring::CyclicOrder(*line);
            }
        }
        true
    }

    pub fn enter(&mut self, size: usize, step: &Step, place: usize) -> bool {
        let Ring::CyclicOrder(line) = self else {
            return false;
        };
        let index = match (line.is_empty(), step.behind) {
            (true, NOBODY) => 0,
            (true, _) => return false,
            (false, behind) => match line.position(behind) {
                Some(index) => index + 1,
                None => return false,
            },
        };
        line.insert(index, step.robot);
        if line.len() == size {
            line.turn(index, place);
            *self = Ring::Full(*line);
        }
        true
    }
}

/// The slot of the first robot met going backward from an empty slot.
pub(crate) fn slot_behind(state: &State, zone: &Zone, slot: usize) -> Option<usize> {
    let taken = state.taken_in(zone);
    let lower = taken & ((1 << slot) - 1);
    let met = if lower != 0 { lower } else { taken };
    met.checked_ilog2().map(|slot| slot as usize)
}

/// Pushes until a robot stands on the slot it leaves.
pub(crate) fn make_exit(mover: &mut Mover, zone: &Zone, robot: usize, from: usize) {
    push_to(mover, zone, robot, from);
}

/// Pushes until the slot that a step enters is empty and the named robot is
/// behind it.
pub(crate) fn make_entry(mover: &mut Mover, zone: &Zone, step: &Step) {
    loop {
        if mover.state().is_taken(step.to) {
            push(mover, zone, step.to);
            continue;
        }
        match slot_behind(mover.state(), zone, step.to) {
            Some(slot) if mover.state().robot_at(slot) != step.behind => push(mover, zone, slot),
            _ => return,
        }
    }
}

/// Brings a ring to its goals: its lowest robot first, then the rest of the
/// places as a hall.
pub(crate) fn bring_home(mover: &mut Mover, zone: &Zone, wanted: &[u8; VERTICES]) {
    let goals = zone.slots().filter(|&slot| wanted[slot] != NOBODY);
    let Some(goal) = goals.min_by_key(|&slot| wanted[slot]) else {
        return;
    };
    push_to(mover, zone, usize::from(wanted[goal]), goal);
    bring_lane_home(mover, &Lane::round_from(zone, goal), wanted);
}

fn push_to(mover: &mut Mover, zone: &Zone, robot: usize, to: usize) {
    while mover.state().slot_of(robot) != to {
        let slot = mover.state().slot_of(robot);
        push(mover, zone, slot);
    }
}

/// Moves the run of robots forward from a slot by one place, foremost first.
fn push(mover: &mut Mover, zone: &Zone, slot: usize) {
    let mut end = forward(zone, slot);
    while mover.state().is_taken(end) {
        end = forward(zone, end);
    }
    while end != slot {
        let rear = backward(zone, end);
        let robot = mover.state().robot_at(rear);
        mover.go(usize::from(robot), end);
        end = rear;
    }
}

fn forward(zone: &Zone, slot: usize) -> usize {
    if slot + 1 == zone.first + zone.size {
        zone.first
    } else {
        slot + 1
    }
}

fn backward(zone: &Zone, slot: usize) -> usize {
    if slot == zone.first {
        zone.first + zone.size - 1
    } else {
        slot - 1
    }
}
