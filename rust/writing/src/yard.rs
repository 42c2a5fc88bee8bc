//! A yard to write map and placing files of.

use crate::{file, Random, MAP, PLACING};

/// Kinds of zone.
pub const STACK: u8 = 1;
pub const HALL: u8 = 2;
pub const CLIQUE: u8 = 3;
pub const RING: u8 = 4;

/// One step of a plan.
#[derive(Clone, Debug, PartialEq, Eq)]
pub struct Step {
    pub cart: u8,
    pub from: u8,
    pub to: u8,
    pub behind: u8,
    pub follow: Vec<u8>,
}

impl Step {
    /// A step without a follow list.
    pub fn new(cart: u8, from: u8, to: u8, behind: u8) -> Step {
        Step::filling(cart, from, to, behind, &[])
    }

    /// A step with a follow list.
    pub fn filling(cart: u8, from: u8, to: u8, behind: u8, follow: &[u8]) -> Step {
        let follow = follow.to_vec();
        Step {
            cart,
            from,
            to,
            behind,
            follow,
        }
    }
}

/// A map and a placing, before they are files.
#[derive(Clone, Debug, Default)]
pub struct Yard {
    pub points: u8,
    /// Per zone its kind and its points in listed order.
    pub zones: Vec<(u8, Vec<u8>)>,
    pub edges: Vec<(u8, u8)>,
    /// Per cart its start and goal.
    pub carts: Vec<(u8, u8)>,
}

impl Yard {
    /// A yard without carts, with the edges that its zones need.
    pub fn new(zones: &[(u8, &[u8])]) -> Yard {
        let mut yard = Yard::default();
        for &(kind, points) in zones {
            yard.zones.push((kind, points.to_vec()));
            yard.points += points.len() as u8;
        }
        for (kind, points) in yard.zones.clone() {
            for (a, b) in inner_edges(kind, &points) {
                yard.join(a, b);
            }
        }
        yard
    }

    /// A random yard of so many points that every check accepts, with no
    /// carts. Zones have up to `most` points.
    pub fn random(random: &mut Random, points: usize, most: usize) -> Yard {
        let mut order: Vec<u8> = (0..points).map(|point| point as u8).collect();
        if !random.once_in(4) {
            random.shuffle(&mut order);
        }
        let mut zones: Vec<(u8, &[u8])> = Vec::new();
        let mut rest = &order[..];
        let mut inner = 0;
        while !rest.is_empty() {
            let mut kind = random.between(1, 4) as u8;
            let mut size = random.between(1, most.min(rest.len()));
            if kind == RING {
                size = size.max(3.min(most).min(rest.len()));
            }
            if zones.len() == 63 {
                size = rest.len();
            }
            if kind == RING && size < 3 || kind == CLIQUE && inner + size * size / 2 > 1800 {
                kind = random.between(1, 2) as u8;
            }
            inner += if kind == CLIQUE {
                size * size / 2
            } else {
                size
            };
            let (points, later) = rest.split_at(size);
            zones.push((kind, points));
            rest = later;
        }
        let mut yard = Yard::new(&zones);
        let tracks = random.below(3 * points + 1);
        yard.join_at_random(random, tracks);
        yard
    }

    /// Tries to join so many points of different zones, leaving the deeper
    /// points of stacks alone.
    pub fn join_at_random(&mut self, random: &mut Random, tracks: usize) {
        let mut doors = Vec::new();
        for (zone, (kind, points)) in self.zones.iter().enumerate() {
            let open = if *kind == STACK { 1 } else { points.len() };
            doors.extend(points[..open].iter().map(|&point| (zone, point)));
        }
        for _ in 0..tracks {
            let (&(zone, a), &(other, b)) = (random.pick(&doors), random.pick(&doors));
            if zone != other && self.edges.len() < 2048 {
                self.join(a, b);
            }
        }
    }

    /// Puts so many carts on random points, each with its start as goal.
    pub fn place_at_random(&mut self, random: &mut Random, carts: usize) {
        let mut points: Vec<u8> = (0..self.points).collect();
        random.shuffle(&mut points);
        points.truncate(carts);
        self.carts = points.into_iter().map(|point| (point, point)).collect();
    }

    /// The same yard with more edges.
    pub fn joined(mut self, edges: &[(u8, u8)]) -> Yard {
        for &(a, b) in edges {
            self.join(a, b);
        }
        self
    }

    /// The same yard with these carts: start and goal of each.
    pub fn with(mut self, carts: &[(u8, u8)]) -> Yard {
        self.carts = carts.to_vec();
        self
    }

    /// Puts an edge in its place among the others.
    pub fn join(&mut self, a: u8, b: u8) {
        let edge = (a.min(b), a.max(b));
        if let Err(index) = self.edges.binary_search(&edge) {
            self.edges.insert(index, edge);
        }
    }

    /// The payload of the map.
    pub fn map_payload(&self) -> Vec<u8> {
        let mut payload = vec![self.points, self.zones.len() as u8];
        for (kind, points) in &self.zones {
            payload.extend_from_slice(&[*kind, points.len() as u8]);
            payload.extend_from_slice(points);
        }
        payload.extend_from_slice(&(self.edges.len() as u16).to_be_bytes());
        for &(a, b) in &self.edges {
            payload.extend_from_slice(&[a, b]);
        }
        payload
    }

    /// The payload of the placing.
    pub fn placing_payload(&self) -> Vec<u8> {
        let mut payload = vec![self.carts.len() as u8];
        for &(start, goal) in &self.carts {
            payload.extend_from_slice(&[start, goal]);
        }
        payload
    }

    /// The map file.
    pub fn map(&self) -> Vec<u8> {
        file(MAP, &self.map_payload())
    }

    /// The placing file.
    pub fn placing(&self) -> Vec<u8> {
        file(PLACING, &self.placing_payload())
    }
}

/// The edges that a zone of a kind has inside.
fn inner_edges(kind: u8, points: &[u8]) -> Vec<(u8, u8)> {
    let mut edges = Vec::new();
    match kind {
        CLIQUE => {
            for (index, &a) in points.iter().enumerate() {
                edges.extend(points[index + 1..].iter().map(|&b| (a, b)));
            }
        }
        _ => {
            edges.extend(points.windows(2).map(|pair| (pair[0], pair[1])));
            if kind == RING {
                edges.push((points[points.len() - 1], points[0]));
            }
        }
    }
    edges
}
