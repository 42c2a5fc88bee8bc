//! The map file: vertices, zones and edges.

use std::ops::RangeInclusive;

use crate::answer::Refusal;
use crate::blocks::{self, Kind, Payload};
use crate::zones::{Zone, ZoneKind};

/// Most vertices on a map.
pub(crate) const VERTICES: usize = 128;
const MOST_ZONES: u8 = 64;
const MOST_EDGES: u16 = 2048;

/// An accepted map.
///
/// The zones listed one after another give every vertex a slot: its position
/// in that listing. A zone's slots stand together, in listed order.
pub(crate) struct Map {
    vertices: usize,
    zones: Vec<Zone>,
    zone_of: [u8; VERTICES],
    slot_of: [u8; VERTICES],
    vertex_at: [u8; VERTICES],
    /// Per vertex the bits of the vertices joined to it.
    joined: [u128; VERTICES],
}

impl Map {
    /// Reads a map file.
    pub fn read(file: &[u8]) -> Result<Map, Refusal> {
        let payload = &mut blocks::open(Kind::Map, file)?;
        let vertices = field(payload, 1..=VERTICES as u8)?;
        let zones = field(payload, 1..=MOST_ZONES)?;
        let mut map = Map {
            vertices: usize::from(vertices),
            zones: Vec::with_capacity(usize::from(zones)),
            zone_of: [0; VERTICES],
            slot_of: [0; VERTICES],
            vertex_at: [0; VERTICES],
            joined: [0; VERTICES],
        };
        map.read_zones(payload, zones)?;
        map.read_edges(payload)?;
        if !payload.is_finished() {
            return Err(Kind::Map.refuse(5, payload.offset()));
        }
        match map.zones.iter().position(|zone| !map.is_of_its_kind(zone)) {
            Some(zone) => Err(Kind::Map.refuse(9, zone)),
            None => Ok(map),
        }
    }

    /// Reads the zones and gives every vertex its slot.
    fn read_zones(&mut self, payload: &mut Payload, zones: u8) -> Result<(), Refusal> {
        let mut listed = 0u128;
        let mut slot = 0;
        for zone in 0..zones {
            let offset = payload.offset();
            let kind = ZoneKind::of(field(payload, 0..=u8::MAX)?);
            let kind = kind.ok_or(Kind::Map.refuse(6, offset))?;
            let size = field(payload, kind.least_size()..=u8::MAX)?;
            let first = slot;
            for _ in 0..size {
                let offset = payload.offset();
                let vertex = field(payload, 0..=u8::MAX)?;
                if usize::from(vertex) >= self.vertices || listed >> vertex & 1 == 1 {
                    return Err(Kind::Map.refuse(7, offset));
                }
                listed |= 1 << vertex;
                self.zone_of[usize::from(vertex)] = zone;
                self.slot_of[usize::from(vertex)] = slot as u8;
                self.vertex_at[slot] = vertex;
                slot += 1;
            }
            let size = usize::from(size);
            self.zones.push(Zone { kind, first, size });
        }
        if slot < self.vertices {
            return Err(Kind::Map.refuse(7, payload.offset()));
        }
        Ok(())
    }

    /// Reads the edges, which must rise.
    fn read_edges(&mut self, payload: &mut Payload) -> Result<(), Refusal> {
        let offset = payload.offset();
        let edges = payload.number().ok_or(Kind::Map.refuse(5, offset))?;
        if edges > MOST_EDGES {
            return Err(Kind::Map.refuse(6, offset));
        }
        let mut before = None;
        for _ in 0..edges {
            let offset = payload.offset();
            let Some([a, b]) = payload.array() else {
                return Err(Kind::Map.refuse(5, payload.offset()));
            };
            if a >= b || usize::from(b) >= self.vertices || Some((a, b)) <= before {
                return Err(Kind::Map.refuse(8, offset));
            }
            before = Some((a, b));
            self.joined[usize::from(a)] |= 1 << b;
            self.joined[usize::from(b)] |= 1 << a;
        }
        Ok(())
    }

    fn is_of_its_kind(&self, zone: &Zone) -> bool {
        let listed = &self.vertex_at[zone.slots()];
        zone.kind.fits(listed, &self.joined)
    }

    pub fn vertices(&self) -> usize {
        self.vertices
    }

    pub fn zones(&self) -> &[Zone] {
        &self.zones
    }

    /// The zone number of a vertex.
    pub fn zone_of(&self, vertex: usize) -> usize {
        usize::from(self.zone_of[vertex])
    }

    /// The slot of a vertex.
    pub fn slot_of(&self, vertex: usize) -> usize {
        usize::from(self.slot_of[vertex])
    }

    /// The vertex of a slot.
    pub fn vertex_at(&self, slot: usize) -> u8 {
        self.vertex_at[slot]
    }

    /// Whether there is an edge between two vertices.
    pub fn are_joined(&self, a: usize, b: usize) -> bool {
        self.joined[a] >> b & 1 == 1
    }
}

/// Reads a field of one byte that has a range.
fn field(payload: &mut Payload, range: RangeInclusive<u8>) -> Result<u8, Refusal> {
    let offset = payload.offset();
    match payload.byte() {
        None => Err(Kind::Map.refuse(5, offset)),
        Some(byte) if !range.contains(&byte) => Err(Kind::Map.refuse(6, offset)),
        Some(byte) => Ok(byte),
    }
}
