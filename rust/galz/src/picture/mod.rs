//! Pictures: a yard as SVG, and its moves as a page that plays them.

mod colour;
mod labels;
mod layout;
mod page;
mod svg;

pub use colour::{contrast, robot_colour, Rgb, INK, KINDS, PAPER};
pub use layout::Layout;

use crate::map::Map;
use crate::moves::{self, Move};
use crate::placing::Placing;
use crate::service::{Answer, Service, ROOM};
use crate::yard::Files;

/// The service that refused, and its answer.
type Refused = (Service, Answer);

/// The picture of a yard, if map and placing are accepted.
pub fn svg(name: &str, files: &Files) -> Result<String, Refused> {
    let (map, placing) = accepted(files)?;
    Ok(svg::yard(name, &map, &placing))
}

/// The page that plays the moves of MOVES, or those that PLAN is resolved
/// into.
pub fn page(name: &str, files: &Files) -> Result<String, Refused> {
    let (map, placing) = accepted(files)?;
    let mut files = files.clone();
    if files.moves.is_empty() {
        let answer = Service::Resolve.call(&files, ROOM);
        if answer.number != 0 {
            return Err((Service::Resolve, answer));
        }
        files.moves = answer.bytes;
    }
    let sheet = Service::Rounds.call(&files, ROOM);
    if sheet.number != 0 {
        return Err((Service::Rounds, sheet));
    }
    let moves = moves::read(&files.moves).unwrap_or_default();
    let rounds = moves::rounds(&sheet.bytes).unwrap_or_default();
    let moves: Vec<(Move, u16)> = moves.into_iter().zip(rounds).collect();
    Ok(page::page(name, &map, &placing, &moves))
}

/// Map and placing, if the proved library accepts them.
fn accepted(files: &Files) -> Result<(Map, Placing), Refused> {
    let answer = Service::Judge.call(files, 0);
    if (11..=28).contains(&answer.number) {
        return Err((Service::Judge, answer));
    }
    let read = || {
        let map = Map::read(&files.map).accepted().ok()?;
        let placing = Placing::read(&map, &files.placing).accepted().ok()?;
        Some((map, placing))
    };
    read().ok_or((Service::Judge, answer))
}

/// Text with the signs that mean something in SVG and HTML written out.
fn escaped(text: &str) -> String {
    text.replace('&', "&amp;")
        .replace('<', "&lt;")
        .replace('>', "&gt;")
        .replace('"', "&quot;")
}
