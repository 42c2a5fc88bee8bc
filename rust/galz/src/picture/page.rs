//! The page that plays moves round by round.

use super::escaped;
use super::layout::Layout;
use super::svg::picture;
use crate::map::Map;
use crate::moves::Move;
use crate::placing::Placing;

/// The page, with places for its name, picture and data.
const PAGE: &str = include_str!("page.html");

/// The page of moves with their rounds.
pub fn page(name: &str, map: &Map, placing: &Placing, moves: &[(Move, u16)]) -> String {
    let layout = Layout::new(map);
    let drawn = picture(name, map, placing, &layout, "cart");
    let data = data(map, placing, &layout, moves);
    let mut page = String::new();
    let mut rest = PAGE;
    for (mark, text) in [
        ("<!--NAME-->", escaped(name)),
        ("<!--HEADING-->", escaped(name)),
        ("<!--PICTURE-->", drawn),
        ("<!--DATA-->", data),
    ] {
        let (before, after) = rest.split_once(mark).unwrap_or((rest, ""));
        page += before;
        page += &text;
        rest = after;
    }
    page + rest
}

/// What the page's script reads, as JSON. It holds numbers and zone names
/// only.
fn data(map: &Map, placing: &Placing, layout: &Layout, moves: &[(Move, u16)]) -> String {
    let spots = layout.spots.iter().map(|(x, y)| format!("[{x:.1},{y:.1}]"));
    let zones = (0..map.vertices).map(|vertex| {
        let name = map.zone_of(vertex).map(|zone| map.zone_in_words(zone));
        format!("\"{}\"", name.unwrap_or_default())
    });
    let robots = placing.robots.iter().map(|(a, b)| format!("[{a},{b}]"));
    let moves = moves
        .iter()
        .map(|(m, round)| format!("[{},{},{},{round}]", m.robot, m.from, m.to));
    format!(
        "{{\"spots\":[{}],\n\"zones\":[{}],\n\"carts\":[{}],\n\"moves\":[{}]}}",
        spots.collect::<Vec<_>>().join(","),
        zones.collect::<Vec<_>>().join(","),
        robots.collect::<Vec<_>>().join(","),
        moves.collect::<Vec<_>>().join(",")
    )
}
