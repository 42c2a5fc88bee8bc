//! A yard: what the files of a folder hold.

use std::collections::BTreeSet;

use crate::blocks::{file, FileKind};
use crate::fault::Fault;
use crate::map::{Map, Zone};
use crate::moves::{self, Move};
use crate::placing::Placing;
use crate::plan::{self, Step};

/// The files of a folder; a missing one has length 0.
#[derive(Clone, Debug, Default, PartialEq, Eq)]
pub struct Files {
    pub map: Vec<u8>,
    pub placing: Vec<u8>,
    pub plan: Vec<u8>,
    pub moves: Vec<u8>,
}

/// A map, a placing, and a plan or a move list or both.
#[derive(Clone, Debug, PartialEq, Eq)]
pub struct Yard {
    pub map: Map,
    pub placing: Placing,
    pub plan: Option<Vec<Step>>,
    pub moves: Option<Vec<Move>>,
}

impl Yard {
    /// Reads files whose fields can be read, accepted or not.
    pub fn read(files: &Files) -> Result<Yard, Fault> {
        let reading = Map::read(&files.map);
        let map = match (reading.value, reading.fault) {
            (Some(map), _) => map,
            (None, fault) => return Err(fault.unwrap_or_else(unreadable)),
        };
        let reading = Placing::read(&map, &files.placing);
        let placing = match (reading.value, reading.fault) {
            (Some(placing), _) => placing,
            (None, fault) => return Err(fault.unwrap_or_else(unreadable)),
        };
        let plan = match &files.plan[..] {
            [] => None,
            plan => Some(plan::shown(&map, &placing, plan)?),
        };
        let moves = match &files.moves[..] {
            [] => None,
            moves => Some(moves::read(moves)?),
        };
        Ok(Yard {
            map,
            placing,
            plan,
            moves,
        })
    }

    /// The files that hold this yard.
    pub fn files(&self) -> Files {
        let plan = self.plan.as_ref();
        let moves = self.moves.as_ref();
        Files {
            map: file(FileKind::Map, &map_payload(&self.map)),
            placing: file(FileKind::Placing, &placing_payload(&self.placing)),
            plan: plan.map_or(Vec::new(), |plan| {
                file(FileKind::Plan, &plan::payload(plan))
            }),
            moves: moves.map_or(Vec::new(), |moves| {
                file(FileKind::MoveList, &moves::payload(moves))
            }),
        }
    }
}

fn unreadable() -> Fault {
    Fault::new(15, 0, "the files can't be read".to_string())
}

fn map_payload(map: &Map) -> Vec<u8> {
    let mut payload = vec![map.vertices, map.zones.len() as u8];
    for Zone { kind, vertices } in &map.zones {
        payload.extend_from_slice(&[*kind as u8, vertices.len() as u8]);
        payload.extend_from_slice(vertices);
    }
    payload.extend_from_slice(&(map.edges.len() as u16).to_be_bytes());
    payload.extend(map.edges.iter().flat_map(|&(a, b)| [a, b]));
    payload
}

fn placing_payload(placing: &Placing) -> Vec<u8> {
    let mut payload = vec![placing.robots.len() as u8];
    payload.extend(placing.robots.iter().flat_map(|&(a, b)| [a, b]));
    payload
}

/// The edges that the zones' kinds ask for.
pub fn inner_edges(zones: &[Zone]) -> BTreeSet<(u8, u8)> {
    let zones = zones.iter();
    zones
        .flat_map(|zone| zone.kind.inner_edges(&zone.vertices))
        .collect()
}
