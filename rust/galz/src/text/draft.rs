//! Reading lines into a yard.

use std::collections::BTreeSet;

use super::words::Words;
use super::{listed, TextError};
use crate::configuration::NOBODY;
use crate::map::{Map, Zone, ZoneKind};
use crate::moves::Move;
use crate::placing::Placing;
use crate::plan::Step;
use crate::yard::{inner_edges, Yard};

/// What is read so far.
#[derive(Default)]
pub struct Draft {
    vertices: Option<u8>,
    zones: Vec<Zone>,
    edges: Vec<(u8, u8)>,
    is_listed: bool,
    robots: Vec<(u8, u8)>,
    plan: Option<Vec<Step>>,
    moves: Option<Vec<Move>>,
}

/// Most entries that a two-byte count takes.
const MOST: usize = u16::MAX as usize;

impl Draft {
    /// Reads a line.
    pub fn line(&mut self, words: &mut Words) -> Result<(), TextError> {
        const STARTS: &str =
            "`points`, `zone`, `tracks`, `track`, `cart`, `plan`, `step`, `moves` or `move`";
        let start = words.peek().unwrap_or("");
        let again = || words.error(&format!("`{start}` only once"));
        match start {
            "points" if self.vertices.is_some() => return Err(again()),
            "tracks" if self.is_listed => return Err(again()),
            "plan" if self.plan.is_some() => return Err(again()),
            "moves" if self.moves.is_some() => return Err(again()),
            "step" if self.plan.is_none() => {
                return Err(words.error("`plan` on a line before the first step"))
            }
            "move" if self.moves.is_none() => {
                return Err(words.error("`moves` on a line before the first move"))
            }
            "points" | "zone" | "tracks" | "track" | "cart" | "plan" | "step" | "moves"
            | "move" => words.word(start)?,
            _ => return Err(words.error(STARTS)),
        }
        match start {
            "points" => self.vertices = Some(words.number("how many points there are")?),
            "zone" => self.zone(words)?,
            "tracks" => {
                words.word("listed")?;
                self.is_listed = true;
            }
            "track" => {
                let a = words.number("the point at one end of the track")?;
                let b = words.number("the point at its other end")?;
                at_most(&self.edges, words, "tracks")?;
                self.edges.push((a, b));
            }
            "cart" => {
                words.numbered("cart", self.robots.len())?;
                words.word("start")?;
                let start = words.number("the point where the cart starts")?;
                words.word("goal")?;
                let goal = words.number("the point where it is to end")?;
                self.robots.push((start, goal));
            }
            "plan" => self.plan = Some(Vec::new()),
            "step" => {
                let step = read_step(words)?;
                let steps = self.plan.get_or_insert_default();
                at_most(steps, words, "steps")?;
                steps.push(step);
            }
            "moves" => self.moves = Some(Vec::new()),
            _ => {
                let (robot, from, to) = read_move(words)?;
                let moves = self.moves.get_or_insert_default();
                at_most(moves, words, "moves")?;
                moves.push(Move { robot, from, to });
            }
        }
        Ok(())
    }

    fn zone(&mut self, words: &mut Words) -> Result<(), TextError> {
        words.numbered("zone", self.zones.len())?;
        let kinds = ZoneKind::ALL.into_iter();
        let kind = kinds
            .clone()
            .find(|kind| words.peek() == Some(kind.word()))
            .ok_or_else(|| words.error("`stack`, `hall`, `clique` or `ring`"))?;
        words.word(kind.word())?;
        let vertices = words.numbers("a point of the zone")?;
        self.zones.push(Zone { kind, vertices });
        Ok(())
    }

    /// The yard, if the text ends here.
    pub fn finish(self, line: usize) -> Result<Yard, TextError> {
        let at_end = |expected: &str| TextError {
            line,
            column: 1,
            expected: expected.to_string(),
            found: "the end of the text".to_string(),
        };
        if self.zones.is_empty() {
            return Err(at_end("a `zone`"));
        }
        let vertices = match self.vertices {
            Some(vertices) => vertices,
            None => u8::try_from(listed(&self.zones))
                .map_err(|_| at_end("no more than 255 points in the zones"))?,
        };
        let edges = if self.is_listed {
            self.edges
        } else {
            let written = self.edges.into_iter().map(|(a, b)| (a.min(b), a.max(b)));
            let edges: BTreeSet<(u8, u8)> = written.chain(inner_edges(&self.zones)).collect();
            edges.into_iter().collect()
        };
        Ok(Yard {
            map: Map {
                vertices,
                zones: self.zones,
                edges,
            },
            placing: Placing {
                robots: self.robots,
            },
            plan: self.plan,
            moves: self.moves,
        })
    }
}

/// Refuses a line for which the count has no room.
fn at_most<T>(entries: &[T], words: &mut Words, what: &str) -> Result<(), TextError> {
    if entries.len() < MOST {
        return Ok(());
    }
    Err(words.error_at_start(&format!("no more than {MOST} {what}")))
}

fn read_move(words: &mut Words) -> Result<(u8, u8, u8), TextError> {
    words.word("cart")?;
    let robot = words.number("the number of a cart")?;
    words.word("from")?;
    let from = words.number("the point that the cart leaves")?;
    words.word("to")?;
    let to = words.number("the point that the cart goes to")?;
    Ok((robot, from, to))
}

fn read_step(words: &mut Words) -> Result<Step, TextError> {
    let (robot, from, to) = read_move(words)?;
    let mut behind = NOBODY;
    let mut follow = Vec::new();
    let has_behind = words.has("behind");
    if has_behind && !words.has("none") {
        behind = words
            .number("the cart behind")
            .map_err(|_| words.error("the cart behind, a number from 0 to 255, or `none`"))?;
    }
    if words.has("follow") {
        const WHAT: &str = "a cart of the follow list";
        follow = vec![words.number(WHAT)?];
        follow.extend(words.numbers(WHAT)?);
    } else if !words.is_at_end() {
        return Err(words.error(if has_behind {
            "`follow` or the end of the line"
        } else {
            "`behind`, `follow` or the end of the line"
        }));
    }
    Ok(Step {
        robot,
        from,
        to,
        behind,
        follow,
    })
}
