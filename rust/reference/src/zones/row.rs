//! Stacks and halls: rows of places where robots can't pass each other.
//!
//! A configuration is the order of the robots.

use super::line::Line;
use super::{bit, bits, Zone};
use crate::map::VERTICES;
use crate::plan::Step;
use crate::resolving::Mover;
use crate::state::{State, NOBODY, ROBOTS};

/// Whether neighbours in listed order are joined, and no others.
pub(crate) fn fits_hall(listed: &[u8], joined: &[u128; VERTICES]) -> bool {
    let inside = bits(listed);
    listed.iter().enumerate().all(|(place, &vertex)| {
        let lower = place.checked_sub(1).map_or(0, |lower| bit(listed[lower]));
        let higher = listed.get(place + 1).map_or(0, |&higher| bit(higher));
        joined[usize::from(vertex)] & inside == lower | higher
    })
}

/// Whether this is a hall with outside edges at its first vertex alone.
pub(crate) fn fits_stack(listed: &[u8], joined: &[u128; VERTICES]) -> bool {
    let outside = !bits(listed);
    let mut deeper = listed[1..].iter();
    fits_hall(listed, joined) && deeper.all(|&vertex| joined[usize::from(vertex)] & outside == 0)
}

/// The robots of a stack or hall, from the lowest place up.
pub(crate) struct Row(Line);

impl Row {
    pub fn new(arrangement: &[u8]) -> Row {
        Row(Line::new(arrangement))
    }

    pub fn holds(&self, arrangement: &[u8]) -> bool {
        let present = arrangement.iter().filter(|&&robot| robot != NOBODY);
        present.eq(self.0.iter())
    }

    pub fn leave(&mut self, size: usize, robot: u8, place: usize) -> bool {
        let Some(below) = self.0.position(robot) else {
            return false;
        };
        let above = self.0.len() - below - 1;
        let has_room = below <= place && place + above < size;
        if has_room {
            self.0.remove(below);
        }
        has_room
    }

    pub fn enter(&mut self, size: usize, step: &Step, place: usize) -> bool {
        let Some(below) = count_to(&self.0, step.behind) else {
            return false;
        };
        let above = self.0.len() - below;
        let has_room = below <= place && place + above < size;
        if has_room {
            self.0.insert(below, step.robot);
        }
        has_room
    }
}

/// The slot of the nearest robot at a lower place.
pub(crate) fn slot_behind(state: &State, zone: &Zone, slot: usize) -> Option<usize> {
    let lower = state.taken_in(zone) & ((1 << slot) - 1);
    lower.checked_ilog2().map(|slot| slot as usize)
}

/// How many robots of a line there are up to the named one and with it.
fn count_to(line: &Line, behind: u8) -> Option<usize> {
    match behind {
        NOBODY => Some(0),
        robot => line.position(robot).map(|index| index + 1),
    }
}

/// Rearranges a row so that a robot of it stands on a slot.
pub(crate) fn make_exit(mover: &mut Mover, zone: &Zone, robot: usize, from: usize) {
    let line = Line::new(mover.state().arrangement(zone));
    let Some(below) = line.position(robot as u8) else {
        return;
    };
    let lane = Lane::of(zone);
    let place = lane.place(from);
    let mut targets = part(mover, &lane, &line, below, below + 1, place);
    targets[below] = place as u8;
    shift(mover, &lane, &line, &targets);
}

/// Rearranges a row so that its robots stand on both sides of an empty slot.
pub(crate) fn make_entry(mover: &mut Mover, zone: &Zone, step: &Step) {
    let line = Line::new(mover.state().arrangement(zone));
    let Some(below) = count_to(&line, step.behind) else {
        return;
    };
    let lane = Lane::of(zone);
    let targets = part(mover, &lane, &line, below, below, lane.place(step.to));
    shift(mover, &lane, &line, &targets);
}

/// Brings a row to its goals.
pub(crate) fn bring_home(mover: &mut Mover, zone: &Zone, wanted: &[u8; VERTICES]) {
    bring_lane_home(mover, &Lane::of(zone), wanted);
}

/// Places of a zone one after another, from some slot of it and wrapping.
pub(crate) struct Lane<'a> {
    zone: &'a Zone,
    /// The slot of place 0, before wrapping.
    start: usize,
    length: usize,
}

impl<'a> Lane<'a> {
    /// All places of a zone, as listed.
    fn of(zone: &'a Zone) -> Self {
        Lane {
            zone,
            start: zone.first,
            length: zone.size,
        }
    }

    /// All places of a zone but one, from the one after it round.
    pub fn round_from(zone: &'a Zone, slot: usize) -> Self {
        Lane {
            zone,
            start: slot + 1,
            length: zone.size - 1,
        }
    }

    /// The slot of a place.
    fn slot(&self, place: usize) -> usize {
        let slot = self.start + place;
        if slot < self.zone.first + self.zone.size {
            slot
        } else {
            slot - self.zone.size
        }
    }

    /// The place of a slot.
    fn place(&self, slot: usize) -> usize {
        if slot >= self.start {
            slot - self.start
        } else {
            slot + self.zone.size - self.start
        }
    }
}

/// Targets on both sides of a place: the robots before the index `below` make
/// room below it, those from the index `above` make room above it.
fn part(
    mover: &Mover,
    lane: &Lane,
    line: &Line,
    below: usize,
    above: usize,
    place: usize,
) -> [u8; ROBOTS] {
    let mut targets = [0; ROBOTS];
    let now = |index: usize| lane.place(mover.state().slot_of(usize::from(line[index])));
    for (outward, index) in (0..below).rev().enumerate() {
        targets[index] = now(index).min(place - 1 - outward) as u8;
    }
    for (outward, index) in (above..line.len()).enumerate() {
        targets[index] = now(index).max(place + 1 + outward) as u8;
    }
    targets
}

/// Moves the robots of a line to their target places: those going lower from
/// the lowest up, then those going higher from the highest down.
fn shift(mover: &mut Mover, lane: &Lane, line: &[u8], targets: &[u8]) {
    for (&robot, &target) in line.iter().zip(targets) {
        let robot = usize::from(robot);
        let place = lane.place(mover.state().slot_of(robot));
        for next in (usize::from(target)..place).rev() {
            mover.go(robot, lane.slot(next));
        }
    }
    for (&robot, &target) in line.iter().zip(targets).rev() {
        let robot = usize::from(robot);
        let place = lane.place(mover.state().slot_of(robot));
        for next in place + 1..=usize::from(target) {
            mover.go(robot, lane.slot(next));
        }
    }
}

/// Brings the robots on a lane to their goals.
pub(crate) fn bring_lane_home(mover: &mut Mover, lane: &Lane, wanted: &[u8; VERTICES]) {
    let mut line = [0; ROBOTS];
    let mut targets = [0; ROBOTS];
    let mut count = 0;
    for place in 0..lane.length {
        let robot = wanted[lane.slot(place)];
        if robot != NOBODY {
            line[count] = robot;
            targets[count] = place as u8;
            count += 1;
        }
    }
    shift(mover, lane, &line[..count], &targets[..count]);
}
