//! Where labels go: where least is in their way.

use super::layout::{curve, outer_edges, Frame, Layout, Spot, RADIUS};
use crate::map::Map;
use crate::placing::Placing;

/// The height of a label's line, and the width of its letters.
const HEIGHT: f64 = 16.0;
const LETTER: f64 = 9.0;
const NAME_LETTER: f64 = 10.0;

/// What labels keep away from.
pub struct Obstacles<'a> {
    layout: &'a Layout,
    tracks: Vec<(Spot, Spot)>,
    frames: Vec<Frame>,
}

impl Obstacles<'_> {
    /// The tracks, vertices and goal flags of a picture.
    pub fn new<'a>(map: &Map, placing: &Placing, layout: &'a Layout) -> Obstacles<'a> {
        let at = |vertex: u8| layout.spots[usize::from(vertex)];
        let mut tracks = Vec::new();
        for zone in &map.zones {
            let edges = zone.kind.inner_edges(&zone.vertices).into_iter();
            tracks.extend(edges.map(|(a, b)| (at(a), at(b))));
        }
        for edge in outer_edges(map) {
            let (a, b) = (at(edge.0), at(edge.1));
            match layout.control(edge) {
                None => tracks.push((a, b)),
                Some(control) => {
                    let on = |piece: i32| curve(a, control, b, f64::from(piece) / 10.0);
                    tracks.extend((0..10).map(|piece| (on(piece), on(piece + 1))));
                }
            }
        }
        let goals = placing.robots.iter().map(|&(_, goal)| at(goal));
        let frames = goals.map(flag).collect();
        Obstacles {
            layout,
            tracks,
            frames,
        }
    }

    /// The frame of a zone's name: along its upper edge, from the left on.
    pub fn name(&mut self, zone: Frame, name: &str) -> Frame {
        let width = NAME_LETTER * name.len() as f64 + 6.0;
        let room = zone.width - width - 13.0;
        self.take([0.0, 1.0, 0.5, 0.25, 0.75].map(|part| Frame {
            x: zone.x + 7.0 + part * room,
            y: zone.y + 6.0,
            width,
            height: HEIGHT + 6.0,
        }))
    }

    /// The frame of a vertex's number: below it, or beside it.
    pub fn number(&mut self, vertex: u8) -> Frame {
        let (x, y) = self.layout.spots[usize::from(vertex)];
        let width = LETTER * vertex.to_string().len() as f64 + 2.0;
        let at = |right: f64, down: f64| Frame {
            x: x + right - width / 2.0,
            y: y + down - HEIGHT / 2.0,
            width,
            height: HEIGHT,
        };
        let beside = RADIUS + 4.0 + width / 2.0;
        self.take([
            at(0.0, RADIUS + 11.0),
            at(15.0 + width / 2.0, 23.0),
            at(-15.0 - width / 2.0, 23.0),
            at(beside, 9.0),
            at(-beside, 9.0),
            at(-beside, 0.0),
            at(beside, -9.0),
            at(0.0, -RADIUS - 11.0),
        ])
    }

    /// The frame with least in its way, an earlier one rather than a later.
    fn take<const COUNT: usize>(&mut self, frames: [Frame; COUNT]) -> Frame {
        let best = frames.into_iter().min_by_key(|frame| self.in_way(frame));
        let frame = best.unwrap_or(frames[0]);
        self.frames.push(frame);
        frame
    }

    fn in_way(&self, frame: &Frame) -> usize {
        let tracks = self.tracks.iter().filter(|(a, b)| meets(frame, *a, *b));
        let frames = self.frames.iter().filter(|other| overlap(frame, other));
        let spots = self.layout.spots.iter();
        let vertices = spots.filter(|&&(x, y)| {
            let near_x = x.clamp(frame.x, frame.x + frame.width);
            let near_y = y.clamp(frame.y, frame.y + frame.height);
            (near_x - x).hypot(near_y - y) < RADIUS
        });
        tracks.count() + 4 * frames.count() + 4 * vertices.count()
    }
}

/// The frame of the flag at a goal.
fn flag((x, y): Spot) -> Frame {
    Frame {
        x: x + 8.0,
        y: y - 44.0,
        width: 28.0,
        height: 19.0,
    }
}

fn overlap(one: &Frame, other: &Frame) -> bool {
    one.x < other.x + other.width
        && other.x < one.x + one.width
        && one.y < other.y + other.height
        && other.y < one.y + one.height
}

/// Whether a straight track runs through a frame.
fn meets(frame: &Frame, a: Spot, b: Spot) -> bool {
    let (mut first, mut last) = (0.0f64, 1.0f64);
    for (from, by, low, high) in [
        (a.0, b.0 - a.0, frame.x, frame.x + frame.width),
        (a.1, b.1 - a.1, frame.y, frame.y + frame.height),
    ] {
        if by == 0.0 {
            if from < low || from > high {
                return false;
            }
        } else {
            let (one, other) = ((low - from) / by, (high - from) / by);
            first = first.max(one.min(other));
            last = last.min(one.max(other));
        }
    }
    first <= last
}
