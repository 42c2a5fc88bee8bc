//! The map: vertices (points), zones and edges (tracks).

use crate::blocks::{self, FileKind};
use crate::fault::First;
use crate::fields::{Fields, Reading};
use crate::words::{count, list, named, verb};

/// Most vertices, zones and edges of a map.
const VERTICES: u8 = 128;
const ZONES: u8 = 64;
const EDGES: u16 = 2048;

/// The kinds of zone, with document 01's number.
#[derive(Clone, Copy, Debug, PartialEq, Eq)]
pub enum ZoneKind {
    Stack = 1,
    Hall = 2,
    Clique = 3,
    Ring = 4,
}

impl ZoneKind {
    pub const ALL: [ZoneKind; 4] = [
        ZoneKind::Stack,
        ZoneKind::Hall,
        ZoneKind::Clique,
        ZoneKind::Ring,
    ];

    pub fn word(self) -> &'static str {
        match self {
            ZoneKind::Stack => "stack",
            ZoneKind::Hall => "hall",
            ZoneKind::Clique => "clique",
            ZoneKind::Ring => "ring",
        }
    }

    fn least_size(self) -> u8 {
        match self {
            ZoneKind::Ring => 3,
            _ => 1,
        }
    }

    /// The edges that a zone of this kind has inside, lower end first.
    pub fn inner_edges(self, listed: &[u8]) -> Vec<(u8, u8)> {
        let edge = |a: u8, b: u8| (a.min(b), a.max(b));
        let mut edges = Vec::new();
        match self {
            ZoneKind::Clique => {
                for (place, &a) in listed.iter().enumerate() {
                    edges.extend(listed[place + 1..].iter().map(|&b| edge(a, b)));
                }
            }
            ZoneKind::Stack | ZoneKind::Hall | ZoneKind::Ring => {
                edges.extend(listed.windows(2).map(|pair| edge(pair[0], pair[1])));
                if let (ZoneKind::Ring, [first, .., last]) = (self, listed) {
                    edges.push(edge(*first, *last));
                }
            }
        }
        edges
    }
}

/// A zone: its kind and its vertices in listed order.
#[derive(Clone, Debug, PartialEq, Eq)]
pub struct Zone {
    pub kind: ZoneKind,
    pub vertices: Vec<u8>,
}

/// What a map file holds.
#[derive(Clone, Debug, PartialEq, Eq)]
pub struct Map {
    pub vertices: u8,
    pub zones: Vec<Zone>,
    pub edges: Vec<(u8, u8)>,
}

impl Map {
    /// Reads a map file.
    pub fn read(file: &[u8]) -> Reading<Map> {
        Reading::of(|first| match blocks::payload(FileKind::Map, file) {
            Ok(payload) => Map::from_payload(&payload, first),
            Err(fault) => {
                first.note(fault);
                None
            }
        })
    }

    fn from_payload(payload: &[u8], first: &mut First) -> Option<Map> {
        let fields = &mut Fields::new(payload);
        let vertices = counted(fields, first, VERTICES, "point")?;
        let zones = counted(fields, first, ZONES, "zone")?;
        if zones == 0 {
            return None;
        }
        let mut map = Map {
            vertices,
            zones: Vec::new(),
            edges: Vec::new(),
        };
        for _ in 0..zones {
            map.read_zone(fields, first)?;
        }
        let lost: Vec<u8> = (0..vertices)
            .filter(|&vertex| map.zone_of(vertex).is_none())
            .collect();
        if !lost.is_empty() {
            let words = format!(
                "{} {} in no zone",
                named("point", &lost),
                verb(lost.len(), "is", "are")
            );
            first.note(FileKind::Map.fault(7, fields.offset(), words));
        }
        map.read_edges(fields, first)?;
        if fields.left() > 0 {
            let words = format!(
                "MAP goes on after its last track: {} too many, from payload byte {} on",
                count(fields.left(), "byte"),
                fields.offset()
            );
            first.note(FileKind::Map.fault(5, fields.offset(), words));
            return None;
        }
        let wrong = (0..map.zones.len()).find_map(|zone| Some((zone, map.wrong_kind(zone)?)));
        if let Some((zone, words)) = wrong {
            first.note(FileKind::Map.fault(9, zone, words));
        }
        Some(map)
    }

    fn read_zone(&mut self, fields: &mut Fields, first: &mut First) -> Option<()> {
        let zone = self.zones.len();
        let offset = fields.offset();
        let byte = field(fields, first, &format!("the kind of zone {zone}"))?;
        let Some(kind) = ZoneKind::ALL.into_iter().find(|kind| *kind as u8 == byte) else {
            let words = format!(
                "zone {zone} has kind {byte}, but kinds are 1 stack, 2 hall, 3 clique, 4 ring"
            );
            first.note(FileKind::Map.fault(6, offset, words));
            return None;
        };
        let offset = fields.offset();
        let size = field(fields, first, &format!("the size of zone {zone}"))?;
        if size < kind.least_size() {
            let words = format!(
                "zone {zone} is a {} of {}, but a {} has at least {}",
                kind.word(),
                count(size.into(), "point"),
                kind.word(),
                count(kind.least_size().into(), "point")
            );
            first.note(FileKind::Map.fault(6, offset, words));
        }
        self.zones.push(Zone {
            kind,
            vertices: Vec::new(),
        });
        for _ in 0..size {
            let offset = fields.offset();
            let vertex = field(fields, first, &format!("a point of zone {zone}"))?;
            let words = if vertex >= self.vertices {
                Some(format!(
                    "zone {zone} lists point {vertex}, but {}",
                    self.vertices_in_words()
                ))
            } else {
                self.zone_of(vertex).map(|other| {
                    if other == zone {
                        format!("zone {zone} lists point {vertex} twice")
                    } else {
                        format!("zone {zone} lists point {vertex}, which zone {other} lists")
                    }
                })
            };
            if let Some(words) = words {
                first.note(FileKind::Map.fault(7, offset, words));
            }
            self.zones[zone].vertices.push(vertex);
        }
        Some(())
    }

    fn read_edges(&mut self, fields: &mut Fields, first: &mut First) -> Option<()> {
        let offset = fields.offset();
        let Some(edges) = fields.word() else {
            first.note(ends_before(offset, "the track count"));
            return None;
        };
        if edges > EDGES {
            let words = format!("MAP counts {edges} tracks, but a map has at most {EDGES}");
            first.note(FileKind::Map.fault(6, offset, words));
        }
        for index in 0..edges {
            let offset = fields.offset();
            let a = field(fields, first, &format!("the first point of track {index}"))?;
            let b = field(fields, first, &format!("the second point of track {index}"))?;
            let before = self.edges.last().copied();
            let words = if a == b {
                Some(format!("joins point {a} to itself"))
            } else if a > b {
                Some("has its higher point first".to_string())
            } else if b >= self.vertices {
                Some(format!(
                    "ends at point {b}, but {}",
                    self.vertices_in_words()
                ))
            } else if before == Some((a, b)) {
                Some("is written twice".to_string())
            } else {
                before
                    .filter(|&before| before > (a, b))
                    .map(|(c, d)| format!("comes after track {c}-{d}, but tracks must rise"))
            };
            if let Some(words) = words {
                let words = format!("track {a}-{b} {words}");
                first.note(FileKind::Map.fault(8, offset, words));
            }
            self.edges.push((a, b));
        }
        Some(())
    }

    /// `the map has points 0 to 11`.
    pub fn vertices_in_words(&self) -> String {
        format!(
            "the map has points 0 to {}",
            usize::from(self.vertices).saturating_sub(1)
        )
    }

    /// The zone that lists a vertex.
    pub fn zone_of(&self, vertex: u8) -> Option<usize> {
        let mut zones = self.zones.iter();
        zones.position(|zone| zone.vertices.contains(&vertex))
    }

    /// The place of a vertex in its zone's listed order.
    pub fn place_of(&self, vertex: u8) -> Option<usize> {
        let mut zones = self.zones.iter();
        zones.find_map(|zone| zone.vertices.iter().position(|&other| other == vertex))
    }

    /// `hall 2`.
    pub fn zone_in_words(&self, zone: usize) -> String {
        format!("{} {zone}", self.zones[zone].kind.word())
    }

    pub fn are_joined(&self, a: u8, b: u8) -> bool {
        self.edges.contains(&(a.min(b), a.max(b)))
    }

    /// Why a zone is not of its kind.
    fn wrong_kind(&self, zone: usize) -> Option<String> {
        let Zone { kind, vertices } = &self.zones[zone];
        let needed = kind.inner_edges(vertices);
        let name = format!(
            "{} lists points {}",
            self.zone_in_words(zone),
            list(vertices)
        );
        if let Some((a, b)) = needed.iter().find(|edge| !self.edges.contains(edge)) {
            let rule = match kind {
                ZoneKind::Clique => "every two points of a clique are joined",
                ZoneKind::Ring => "neighbours round a ring are joined",
                ZoneKind::Stack | ZoneKind::Hall => "neighbours in listed order are joined",
            };
            return Some(format!("{name}: {rule}, but there is no track {a}-{b}"));
        }
        let is_inside = |vertex: &u8| vertices.contains(vertex);
        let mut inner = self.edges.iter();
        let extra =
            inner.find(|(a, b)| is_inside(a) && is_inside(b) && !needed.contains(&(*a, *b)));
        if let Some((a, b)) = extra {
            return Some(format!(
                "{name}: only neighbours in listed order are joined, but there is a track {a}-{b}"
            ));
        }
        if *kind != ZoneKind::Stack {
            return None;
        }
        let (open, deeper) = vertices.split_first()?;
        let mut edges = self.edges.iter().flat_map(|&(a, b)| [(a, b), (b, a)]);
        let (inside, outside) = edges.find(|(a, b)| deeper.contains(a) && !is_inside(b))?;
        Some(format!(
            "{name}: only point {open}, its first, may have a track outside, but there is a track from {inside} to {outside}"
        ))
    }
}

/// A fault of a payload that ends too early.
fn ends_before(offset: usize, what: &str) -> crate::fault::Fault {
    let words = format!("MAP ends at payload byte {offset}, where {what} was to be read");
    FileKind::Map.fault(5, offset, words)
}

/// Reads a field of one byte.
fn field(fields: &mut Fields, first: &mut First, what: &str) -> Option<u8> {
    let offset = fields.offset();
    let byte = fields.byte();
    if byte.is_none() {
        first.note(ends_before(offset, what));
    }
    byte
}

/// Reads a count from 1 to the most.
fn counted(fields: &mut Fields, first: &mut First, most: u8, one: &str) -> Option<u8> {
    let offset = fields.offset();
    let number = field(fields, first, &format!("the {one} count"))?;
    if !(1..=most).contains(&number) {
        let words = format!("MAP counts {number} {one}s, but a map has 1 to {most}");
        first.note(FileKind::Map.fault(6, offset, words));
    }
    Some(number)
}
