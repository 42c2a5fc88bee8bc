//! Where zones and vertices stand in a picture.

use std::f64::consts::TAU;

use crate::map::{Map, Zone, ZoneKind};

/// The radius of a vertex.
pub const RADIUS: f64 = 20.0;
/// From one vertex of a zone to the next.
const STRIDE: f64 = 84.0;
/// From the edges of a zone to the middle of its outermost vertices.
const TOP: f64 = 74.0;
const BOTTOM: f64 = 46.0;
const SIDE: f64 = 50.0;
/// Between zones, and round the picture.
const GAP: f64 = 56.0;
const MARGIN: f64 = 24.0;
/// Most vertices of a stack or hall beside each other.
const LANE: usize = 10;
/// How far a track stays away from the picture's edge, and from a vertex that
/// it passes.
const EDGE: f64 = 6.0;
const CLEARANCE: f64 = RADIUS + 6.0;

pub type Spot = (f64, f64);

/// A rectangle: its upper left corner, width and height.
#[derive(Clone, Copy, Debug)]
pub struct Frame {
    pub x: f64,
    pub y: f64,
    pub width: f64,
    pub height: f64,
}

/// A picture's places.
pub struct Layout {
    pub width: f64,
    pub height: f64,
    /// Per zone its frame.
    pub frames: Vec<Frame>,
    /// Per vertex its middle.
    pub spots: Vec<Spot>,
}

/// How zones are set: their order, and per zone one of some turnings.
#[derive(Clone)]
struct Setting {
    order: Vec<usize>,
    turns: Vec<usize>,
}

impl Layout {
    /// Sets the zones row by row, and looks for an order and turning with
    /// short tracks that don't run over vertices.
    pub fn new(map: &Map) -> Layout {
        let outer = outer_edges(map);
        let zones = map.zones.len();
        let mut setting = Setting {
            order: (0..zones).collect(),
            turns: vec![0; zones],
        };
        let mut best = Layout::set(map, &setting);
        let mut cost = best.cost(&outer);
        let work = outer.len() * (map.vertices as usize + outer.len()) + 200;
        let mut random = 1u64;
        let mut below = |limit: usize| {
            random = random
                .wrapping_mul(6364136223846793005)
                .wrapping_add(1442695040888963407);
            (random >> 33) as usize % limit
        };
        for _ in 0..(12_000_000 / work).clamp(60, 4000) {
            let mut other = setting.clone();
            if below(2) == 0 {
                other.order.swap(below(zones), below(zones));
            } else {
                other.turns[below(zones)] = below(8);
            }
            let layout = Layout::set(map, &other);
            let price = layout.cost(&outer);
            if price < cost {
                (setting, best, cost) = (other, layout, price);
            }
        }
        best
    }

    fn set(map: &Map, setting: &Setting) -> Layout {
        let shapes: Vec<Shape> = map
            .zones
            .iter()
            .zip(&setting.turns)
            .map(|(zone, &turn)| Shape::new(zone, turn))
            .collect();
        let area: f64 = shapes
            .iter()
            .map(|shape| (shape.width + GAP) * (shape.height + GAP))
            .sum();
        let widest = shapes.iter().fold(0.0, |most: f64, s| most.max(s.width));
        let limit = widest.max(1.3 * area.sqrt());
        let mut layout = Layout {
            width: 0.0,
            height: 0.0,
            frames: vec![
                Frame {
                    x: 0.0,
                    y: 0.0,
                    width: 0.0,
                    height: 0.0
                };
                shapes.len()
            ],
            spots: vec![(0.0, 0.0); map.vertices.into()],
        };
        let mut rows: Vec<Vec<usize>> = Vec::new();
        let mut filled = f64::INFINITY;
        for &zone in &setting.order {
            if filled + shapes[zone].width > limit {
                rows.push(Vec::new());
                filled = 0.0;
            }
            filled += shapes[zone].width + GAP;
            rows.last_mut().expect("a row was begun").push(zone);
        }
        let mut y = MARGIN;
        for row in rows {
            let height = row
                .iter()
                .fold(0.0, |most: f64, &zone| most.max(shapes[zone].height));
            let mut x = MARGIN;
            for zone in row {
                let shape = &shapes[zone];
                let top = y + (height - shape.height) / 2.0;
                layout.frames[zone] = Frame {
                    x,
                    y: top,
                    width: shape.width,
                    height: shape.height,
                };
                for (&vertex, spot) in map.zones[zone].vertices.iter().zip(&shape.spots) {
                    layout.spots[usize::from(vertex)] = (x + spot.0, top + spot.1);
                }
                x += shape.width + GAP;
            }
            layout.width = layout.width.max(x - GAP + MARGIN);
            y += height + GAP;
        }
        layout.height = y - GAP + MARGIN;
        layout
    }

    /// How bad a layout is for the tracks between zones.
    fn cost(&self, outer: &[(u8, u8)]) -> f64 {
        let ends = |&(a, b): &(u8, u8)| (self.spots[usize::from(a)], self.spots[usize::from(b)]);
        let mut cost = 0.0;
        for (index, edge) in outer.iter().enumerate() {
            let (a, b) = ends(edge);
            cost += distance(a, b) + 250.0 * self.hits(*edge, 0.0) as f64;
            let crossings = outer[index + 1..].iter().filter(|other| {
                let (c, d) = ends(other);
                let is_apart = edge.0 != other.0 && edge.1 != other.1;
                is_apart && edge.0 != other.1 && edge.1 != other.0 && cross(a, b, c, d)
            });
            cost += 120.0 * crossings.count() as f64;
        }
        cost
    }

    /// How many other vertices a track with a bend runs over.
    fn hits(&self, (a, b): (u8, u8), bend: f64) -> usize {
        let (start, end) = (self.spots[usize::from(a)], self.spots[usize::from(b)]);
        let control = bent(start, end, bend);
        let pieces = if bend == 0.0 { 1 } else { 12 };
        let at = |piece: usize| curve(start, control, end, piece as f64 / pieces as f64);
        let is_hit = |spot: Spot| {
            (0..pieces).any(|piece| to_segment(spot, at(piece), at(piece + 1)) < CLEARANCE)
        };
        let spots = self.spots.iter().enumerate();
        spots
            .filter(|&(vertex, &spot)| {
                vertex != usize::from(a) && vertex != usize::from(b) && is_hit(spot)
            })
            .count()
    }

    /// The middle of a track's bow: the track is straight if nothing is in
    /// its way.
    pub fn control(&self, edge: (u8, u8)) -> Option<Spot> {
        const BENDS: [f64; 9] = [0.0, 0.16, -0.16, 0.3, -0.3, 0.45, -0.45, 0.65, -0.65];
        let (a, b) = (
            self.spots[usize::from(edge.0)],
            self.spots[usize::from(edge.1)],
        );
        let is_inside = |bend: &f64| {
            let control = bent(a, b, *bend);
            (0..=12).all(|piece| {
                let (x, y) = curve(a, control, b, f64::from(piece) / 12.0);
                (EDGE..self.width - EDGE).contains(&x) && (EDGE..self.height - EDGE).contains(&y)
            })
        };
        let bends = BENDS.into_iter().filter(is_inside);
        let bend = bends.min_by_key(|&bend| self.hits(edge, bend))?;
        (bend != 0.0).then(|| bent(a, b, bend))
    }
}

/// The edges between zones.
pub fn outer_edges(map: &Map) -> Vec<(u8, u8)> {
    let edges = map.edges.iter().copied();
    edges
        .filter(|&(a, b)| map.zone_of(a) != map.zone_of(b))
        .collect()
}

/// A zone's size and its vertices in listed order, from its upper left corner.
struct Shape {
    width: f64,
    height: f64,
    spots: Vec<Spot>,
}

impl Shape {
    fn new(zone: &Zone, turn: usize) -> Shape {
        let size = zone.vertices.len();
        let is_round = matches!(zone.kind, ZoneKind::Clique | ZoneKind::Ring) && size >= 3;
        let spots: Vec<Spot> = if is_round {
            (0..size).map(|place| round(place, size, turn)).collect()
        } else {
            (0..size).map(|place| laid(place, size, turn)).collect()
        };
        let least = |part: fn(&Spot) -> f64| spots.iter().map(part).fold(f64::INFINITY, f64::min);
        let most = |part: fn(&Spot) -> f64| spots.iter().map(part).fold(0.0, f64::max);
        let (left, top) = (least(|spot| spot.0), least(|spot| spot.1));
        let (right, bottom) = (most(|spot| spot.0), most(|spot| spot.1));
        Shape {
            width: right - left + 2.0 * SIDE,
            height: bottom - top + TOP + BOTTOM,
            spots: spots
                .iter()
                .map(|&(x, y)| (x - left + SIDE, y - top + TOP))
                .collect(),
        }
    }
}

/// A place on a circle, clockwise.
fn round(place: usize, size: usize, turn: usize) -> Spot {
    let radius = STRIDE / 2.0 / (TAU / 2.0 / size as f64).sin();
    let half = 0.5 * (size.is_multiple_of(2) as usize) as f64;
    let steps = place as f64 + half + (turn * size / 8) as f64;
    let angle = TAU * (steps / size as f64 - 0.25);
    (
        2.0 * radius + radius * angle.cos(),
        2.0 * radius + radius * angle.sin(),
    )
}

/// A place in a lane, which goes to and fro if it is long.
fn laid(place: usize, size: usize, turn: usize) -> Spot {
    let lanes = size.div_ceil(LANE);
    let length = size.div_ceil(lanes);
    let place = if turn % 2 == 1 {
        size - 1 - place
    } else {
        place
    };
    let (lane, along) = (place / length, place % length);
    let along = if lane % 2 == 1 {
        length - 1 - along
    } else {
        along
    };
    let (along, lane) = (along as f64 * STRIDE, lane as f64 * STRIDE);
    if turn & 2 == 2 && size <= 5 {
        (lane, along)
    } else {
        (along, lane)
    }
}

fn distance(a: Spot, b: Spot) -> f64 {
    (a.0 - b.0).hypot(a.1 - b.1)
}

/// The control spot of a bow between two spots.
fn bent(a: Spot, b: Spot, bend: f64) -> Spot {
    let (x, y) = ((a.0 + b.0) / 2.0, (a.1 + b.1) / 2.0);
    (x - (b.1 - a.1) * bend, y + (b.0 - a.0) * bend)
}

/// A spot on a bow, from 0 to 1.
pub fn curve(a: Spot, control: Spot, b: Spot, part: f64) -> Spot {
    let rest = 1.0 - part;
    let at = |a: f64, c: f64, b: f64| rest * rest * a + 2.0 * rest * part * c + part * part * b;
    (at(a.0, control.0, b.0), at(a.1, control.1, b.1))
}

fn to_segment(spot: Spot, a: Spot, b: Spot) -> f64 {
    let (x, y) = (b.0 - a.0, b.1 - a.1);
    let length = x * x + y * y;
    let part = if length == 0.0 {
        0.0
    } else {
        (((spot.0 - a.0) * x + (spot.1 - a.1) * y) / length).clamp(0.0, 1.0)
    };
    distance(spot, (a.0 + part * x, a.1 + part * y))
}

fn cross(a: Spot, b: Spot, c: Spot, d: Spot) -> bool {
    let side = |p: Spot, q: Spot, r: Spot| (q.0 - p.0) * (r.1 - p.1) - (q.1 - p.1) * (r.0 - p.0);
    side(a, b, c) * side(a, b, d) < 0.0 && side(c, d, a) * side(c, d, b) < 0.0
}
