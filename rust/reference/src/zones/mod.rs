//! Zones and their configurations, by kind.

mod clique;
mod line;
mod ring;
mod row;

use std::ops::Range;

use crate::map::VERTICES;
use crate::plan::Step;
use crate::resolving::Mover;
use crate::state::{State, NOBODY};
use clique::Clique;
use ring::Ring;
use row::Row;

/// The kind of a zone.
#[derive(Clone, Copy)]
pub(crate) enum ZoneKind {
    Stack,
    Hall,
    Clique,
    Ring,
}

impl ZoneKind {
    /// The kind that a byte of the map names.
    pub fn of(byte: u8) -> Option<ZoneKind> {
        match byte {
            1 => Some(ZoneKind::Stack),
            2 => Some(ZoneKind::Hall),
            3 => Some(ZoneKind::Clique),
            4 => Some(ZoneKind::Ring),
            _ => None,
        }
    }

    pub fn least_size(self) -> u8 {
        match self {
            ZoneKind::Ring => 3,
            _ => 1,
        }
    }

    /// Whether the listed vertices are joined as this kind demands.
    pub fn fits(self, listed: &[u8], joined: &[u128; VERTICES]) -> bool {
        match self {
            ZoneKind::Stack => row::fits_stack(listed, joined),
            ZoneKind::Hall => row::fits_hall(listed, joined),
            ZoneKind::Clique => clique::fits(listed, joined),
            ZoneKind::Ring => ring::fits(listed, joined),
        }
    }
}

/// The bit of a vertex.
fn bit(vertex: u8) -> u128 {
    1 << vertex
}

/// The bits of some vertices.
fn bits(vertices: &[u8]) -> u128 {
    vertices.iter().fold(0, |all, &vertex| all | bit(vertex))
}

/// A zone: its kind and its slots.
pub(crate) struct Zone {
    pub kind: ZoneKind,
    pub first: usize,
    pub size: usize,
}

impl Zone {
    pub fn slots(&self) -> Range<usize> {
        self.first..self.first + self.size
    }

    /// The bits of its slots.
    pub fn bits(&self) -> u128 {
        u128::MAX >> (VERTICES - self.size) << self.first
    }

    /// The robot behind one that comes in on a slot, or nobody.
    pub fn behind(&self, state: &State, to: usize) -> u8 {
        let slot = match self.kind {
            ZoneKind::Stack | ZoneKind::Hall => row::slot_behind(state, self, to),
            ZoneKind::Clique => None,
            ZoneKind::Ring => ring::slot_behind(state, self, to),
        };
        slot.map_or(NOBODY, |slot| state.robot_at(slot))
    }

    /// Brings a robot of this zone to the slot it leaves.
    pub fn make_exit(&self, mover: &mut Mover, robot: usize, from: usize) {
        match self.kind {
            ZoneKind::Stack | ZoneKind::Hall => row::make_exit(mover, self, robot, from),
            ZoneKind::Clique => clique::make_exit(mover, self, robot, from),
            ZoneKind::Ring => ring::make_exit(mover, self, robot, from),
        }
    }

    /// Rearranges this zone so that a step's robot can come in.
    pub fn make_entry(&self, mover: &mut Mover, step: &Step) {
        match self.kind {
            ZoneKind::Stack | ZoneKind::Hall => row::make_entry(mover, self, step),
            ZoneKind::Clique => clique::make_entry(mover, self, step),
            ZoneKind::Ring => ring::make_entry(mover, self, step),
        }
    }

    /// Brings this zone to its goals: per slot the robot wanted there.
    pub fn bring_home(&self, mover: &mut Mover, wanted: &[u8; VERTICES]) {
        match self.kind {
            ZoneKind::Stack | ZoneKind::Hall => row::bring_home(mover, self, wanted),
            ZoneKind::Clique => clique::bring_home(mover, self, wanted),
            ZoneKind::Ring => ring::bring_home(mover, self, wanted),
        }
    }
}

/// All arrangements of a zone that legal moves inside it can reach.
pub(crate) enum Configuration {
    Row(Row),
    Clique(Clique),
    Ring(Ring),
}

impl Configuration {
    /// The configuration that holds an arrangement of a zone.
    pub fn new(zone: &Zone, arrangement: &[u8]) -> Configuration {
        match zone.kind {
            ZoneKind::Stack | ZoneKind::Hall => Configuration::Row(Row::new(arrangement)),
            ZoneKind::Clique => Configuration::Clique(Clique::new(arrangement)),
            ZoneKind::Ring => Configuration::Ring(Ring::new(arrangement)),
        }
    }

    /// Whether one more robot fills a clique.
    pub fn is_clique_to_be_filled(&self, zone: &Zone) -> bool {
        match self {
            Configuration::Clique(clique) => clique.is_to_be_filled(zone.size),
            _ => false,
        }
    }

    /// Whether an arrangement is one of them: per place a robot or nobody.
    pub fn holds(&self, arrangement: &[u8]) -> bool {
        match self {
            Configuration::Row(row) => row.holds(arrangement),
            Configuration::Clique(clique) => clique.holds(arrangement),
            Configuration::Ring(ring) => ring.holds(arrangement),
        }
    }

    /// Takes a robot out from a slot; false if it can't leave there.
    pub fn leave(&mut self, zone: &Zone, robot: u8, from: usize) -> bool {
        let place = from - zone.first;
        match self {
            Configuration::Row(row) => row.leave(zone.size, robot, place),
            Configuration::Clique(clique) => clique.leave(robot, place),
            Configuration::Ring(ring) => ring.leave(robot, place),
        }
    }

    /// Lets a step's robot in; false if the zone is full, or behind or the
    /// follow list isn't met.
    pub fn enter(&mut self, zone: &Zone, step: &Step) -> bool {
        let place = step.to - zone.first;
        match self {
            Configuration::Row(row) => row.enter(zone.size, step, place),
            Configuration::Clique(clique) => clique.enter(step, place),
            Configuration::Ring(ring) => ring.enter(zone.size, step, place),
        }
    }
}
