//! Writing the canonical form.

use std::fmt::{self, Write};

use super::listed;
use crate::configuration::NOBODY;
use crate::map::Map;
use crate::moves::Move;
use crate::yard::{inner_edges, Yard};

/// The text of a yard in canonical form.
pub fn write(yard: &Yard) -> String {
    let mut text = String::new();
    write_yard(&mut text, yard).expect("a string takes all text");
    text
}

fn write_yard(out: &mut String, yard: &Yard) -> fmt::Result {
    let Map {
        vertices,
        zones,
        edges,
    } = &yard.map;
    if usize::from(*vertices) != listed(zones) {
        writeln!(out, "points {vertices}")?;
    }
    for (number, zone) in zones.iter().enumerate() {
        write!(out, "zone {number} {}", zone.kind.word())?;
        numbers(out, &zone.vertices)?;
        writeln!(out)?;
    }
    let inner = inner_edges(zones);
    let rises = edges.windows(2).all(|pair| pair[0] < pair[1]);
    let has_inner = inner.iter().all(|edge| edges.contains(edge));
    let is_plain = rises && edges.iter().all(|(a, b)| a < b) && has_inner;
    if !is_plain {
        writeln!(out, "tracks listed")?;
    }
    for (a, b) in edges {
        if !is_plain || !inner.contains(&(*a, *b)) {
            writeln!(out, "track {a} {b}")?;
        }
    }
    for (number, (start, goal)) in yard.placing.robots.iter().enumerate() {
        writeln!(out, "cart {number} start {start} goal {goal}")?;
    }
    if let Some(steps) = &yard.plan {
        writeln!(out, "plan")?;
        for step in steps {
            write!(
                out,
                "step cart {} from {} to {}",
                step.robot, step.from, step.to
            )?;
            if step.behind != NOBODY {
                write!(out, " behind {}", step.behind)?;
            }
            if !step.follow.is_empty() {
                write!(out, " follow")?;
                numbers(out, &step.follow)?;
            }
            writeln!(out)?;
        }
    }
    if let Some(moves) = &yard.moves {
        writeln!(out, "moves")?;
        for Move { robot, from, to } in moves {
            writeln!(out, "move cart {robot} from {from} to {to}")?;
        }
    }
    Ok(())
}

fn numbers(out: &mut String, numbers: &[u8]) -> fmt::Result {
    numbers
        .iter()
        .try_for_each(|number| write!(out, " {number}"))
}
