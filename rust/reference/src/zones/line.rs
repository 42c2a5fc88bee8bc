//! Robots in a line.

use std::ops::Deref;

use crate::state::{NOBODY, ROBOTS};

/// Some robots, one after another.
#[derive(Clone, Copy)]
pub(crate) struct Line {
    robots: [u8; ROBOTS],
    length: usize,
}

impl Line {
    /// The robots of an arrangement, from its lowest place up.
    pub fn new(arrangement: &[u8]) -> Line {
        let mut line = Line {
            robots: [NOBODY; ROBOTS],
            length: 0,
        };
        for &robot in arrangement {
            if let Some(next) = line.robots.get_mut(line.length) {
                *next = robot;
            }
            line.length += usize::from(robot != NOBODY);
        }
        line
    }

    /// The index of a robot.
    pub fn position(&self, robot: u8) -> Option<usize> {
        self.iter().position(|&other| other == robot)
    }

    pub fn insert(&mut self, index: usize, robot: u8) {
        self.robots.copy_within(index..self.length, index + 1);
        self.robots[index] = robot;
        self.length += 1;
    }

    pub fn remove(&mut self, index: usize) {
        self.robots.copy_within(index + 1..self.length, index);
        self.length -= 1;
    }

    /// Turns the line so that the robot at one index stands at another.
    pub fn turn(&mut self, index: usize, to: usize) {
        let line = &mut self.robots[..self.length];
        if index <= to {
            line.rotate_right(to - index);
        } else {
            line.rotate_left(index - to);
        }
    }
}

impl Deref for Line {
    type Target = [u8];

    fn deref(&self) -> &[u8] {
        &self.robots[..self.length]
    }
}
