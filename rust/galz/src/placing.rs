//! The placing: start and goal of each robot (cart).

use crate::blocks::{self, FileKind};
use crate::fault::First;
use crate::fields::{Fields, Reading};
use crate::map::Map;
use crate::words::count;

/// Most robots.
const ROBOTS: u8 = 64;

/// What a placing file holds.
#[derive(Clone, Debug, PartialEq, Eq)]
pub struct Placing {
    /// Per robot its start and its goal.
    pub robots: Vec<(u8, u8)>,
}

impl Placing {
    /// Reads a placing file.
    pub fn read(map: &Map, file: &[u8]) -> Reading<Placing> {
        Reading::of(|first| match blocks::payload(FileKind::Placing, file) {
            Ok(payload) => Placing::from_payload(map, &payload, first),
            Err(fault) => {
                first.note(fault);
                None
            }
        })
    }

    fn from_payload(map: &Map, payload: &[u8], first: &mut First) -> Option<Placing> {
        let fields = &mut Fields::new(payload);
        let robots = fields.byte()?;
        if robots > ROBOTS.min(map.vertices) {
            let most = if robots > ROBOTS {
                format!("there are at most {ROBOTS}")
            } else {
                format!("the map has only {}", count(map.vertices.into(), "point"))
            };
            let words = format!("PLACING counts {robots} carts, but {most}");
            first.note(FileKind::Placing.fault(6, 0, words));
        }
        let mut placing = Placing { robots: Vec::new() };
        for robot in 0..robots {
            let start = placing.end(map, fields, first, robot, 7)?;
            let goal = placing.end(map, fields, first, robot, 8)?;
            placing.robots.push((start, goal));
        }
        if fields.left() > 0 {
            let words = format!(
                "PLACING goes on after its last cart: {} too many, from payload byte {} on",
                count(fields.left(), "byte"),
                fields.offset()
            );
            first.note(FileKind::Placing.fault(5, fields.offset(), words));
            return None;
        }
        Some(placing)
    }

    /// Reads a start (27) or a goal (28).
    fn end(
        &self,
        map: &Map,
        fields: &mut Fields,
        first: &mut First,
        robot: u8,
        digit: u32,
    ) -> Option<u8> {
        let offset = fields.offset();
        let (noun, verb) = if digit == 7 {
            ("start", "starts")
        } else {
            ("goal", "has its goal")
        };
        let Some(vertex) = fields.byte() else {
            let words = format!(
                "PLACING ends at payload byte {offset}, where the {noun} of cart {robot} was to be read"
            );
            first.note(FileKind::Placing.fault(5, offset, words));
            return None;
        };
        let mut others = self.robots.iter();
        let words = if vertex >= map.vertices {
            Some(map.vertices_in_words())
        } else {
            others
                .position(|&(start, goal)| vertex == if digit == 7 { start } else { goal })
                .map(|other| format!("so does cart {other}"))
        };
        if let Some(words) = words {
            let joint = if vertex >= map.vertices { "but" } else { "and" };
            let words = format!("cart {robot} {verb} at point {vertex}, {joint} {words}");
            first.note(FileKind::Placing.fault(digit, offset, words));
        }
        Some(vertex)
    }

    /// `the placing has carts 0 to 4`.
    pub fn robots_in_words(&self) -> String {
        match self.robots.len() {
            0 => "the placing has no carts".to_string(),
            1 => "the placing has cart 0 only".to_string(),
            robots => format!("the placing has carts 0 to {}", robots - 1),
        }
    }
}
