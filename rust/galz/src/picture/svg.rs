//! A yard as SVG.

use std::fmt::{self, Write};

use super::colour::{of_kind, robot_colour, INK, KINDS, PAPER};
use super::escaped;
use super::labels::Obstacles;
use super::layout::{outer_edges, Frame, Layout, Spot, RADIUS};
use crate::map::{Map, ZoneKind};
use crate::placing::Placing;
use crate::words::count;

/// The least width of a picture, and the height of a line of its legend.
const LEAST_WIDTH: f64 = 420.0;
const LEGEND: f64 = 30.0;

/// More tracks between zones than this are drawn thin.
const MANY: usize = 150;

/// The picture of a yard, robots on their starts.
pub fn yard(name: &str, map: &Map, placing: &Placing) -> String {
    picture(name, map, placing, &Layout::new(map), "cart at its start")
}

/// The picture over a layout; `robot` is what the legend calls a robot.
pub fn picture(name: &str, map: &Map, placing: &Placing, layout: &Layout, robot: &str) -> String {
    let mut out = String::new();
    draw(&mut out, name, map, placing, layout, robot).expect("a string takes all text");
    out
}

fn draw(
    out: &mut String,
    name: &str,
    map: &Map,
    placing: &Placing,
    layout: &Layout,
    robot: &str,
) -> fmt::Result {
    let width = layout.width.max(LEAST_WIDTH);
    let items = legend_items(map, placing, robot);
    let (spots, lines) = legend_spots(&items, width);
    let height = layout.height + lines as f64 * LEGEND + 16.0;
    writeln!(
        out,
        "<svg xmlns=\"http://www.w3.org/2000/svg\" viewBox=\"0 0 {width:.0} {height:.0}\" width=\"{width:.0}\" height=\"{height:.0}\" role=\"img\" font-family=\"'DejaVu Sans', Verdana, Arial, sans-serif\">"
    )?;
    writeln!(out, "<title>{}</title>", escaped(name))?;
    writeln!(
        out,
        "<desc>{} in {}, with {}.</desc>",
        count(map.vertices.into(), "point"),
        count(map.zones.len(), "zone"),
        count(placing.robots.len(), "cart")
    )?;
    writeln!(
        out,
        "<rect width=\"100%\" height=\"100%\" fill=\"{PAPER}\"/>"
    )?;
    draw_zones(out, map, layout)?;
    draw_tracks(out, map, layout)?;
    let mut obstacles = Obstacles::new(map, placing, layout);
    draw_names(out, map, layout, &mut obstacles)?;
    draw_vertices(out, map, layout, &mut obstacles)?;
    for (robot, &(_, goal)) in placing.robots.iter().enumerate() {
        draw_goal(out, robot, layout.spots[usize::from(goal)])?;
    }
    for (robot, &(start, _)) in placing.robots.iter().enumerate() {
        draw_robot(out, robot, start, layout.spots[usize::from(start)])?;
    }
    for (item, (x, y)) in items.iter().zip(spots) {
        draw_item(out, item, (x, y + layout.height + LEGEND / 2.0))?;
    }
    writeln!(out, "</svg>")
}

fn draw_zones(out: &mut String, map: &Map, layout: &Layout) -> fmt::Result {
    for (number, (zone, frame)) in map.zones.iter().zip(&layout.frames).enumerate() {
        let (fill, line) = of_kind(zone.kind);
        writeln!(
            out,
            "<rect class=\"zone\" id=\"zone-{number}\" x=\"{:.1}\" y=\"{:.1}\" width=\"{:.1}\" height=\"{:.1}\" rx=\"14\" fill=\"{fill}\" stroke=\"{line}\" stroke-width=\"1.5\"/>",
            frame.x, frame.y, frame.width, frame.height
        )?;
    }
    Ok(())
}

fn draw_tracks(out: &mut String, map: &Map, layout: &Layout) -> fmt::Result {
    let at = |vertex: u8| layout.spots[usize::from(vertex)];
    for zone in &map.zones {
        let (_, line) = of_kind(zone.kind);
        let (width, opacity) = match (zone.kind, zone.vertices.len()) {
            (ZoneKind::Clique, 21..) => (1.2, 0.18),
            (ZoneKind::Clique, 7..) => (1.2, 0.45),
            _ => (3.0, 0.75),
        };
        for (a, b) in zone.kind.inner_edges(&zone.vertices) {
            let (a, b) = (at(a), at(b));
            writeln!(
                out,
                "<path d=\"M{:.1} {:.1}L{:.1} {:.1}\" stroke=\"{line}\" stroke-width=\"{width}\" stroke-opacity=\"{opacity}\"/>",
                a.0, a.1, b.0, b.1
            )?;
        }
    }
    let outer = outer_edges(map);
    let strokes = if outer.len() > MANY {
        vec![(INK, 1.0, 0.45)]
    } else {
        vec![(PAPER, 6.0, 1.0), (INK, 2.5, 1.0)]
    };
    for edge in outer {
        let (a, b) = (at(edge.0), at(edge.1));
        let path = match layout.control(edge) {
            Some(control) => format!(
                "M{:.1} {:.1}Q{:.1} {:.1} {:.1} {:.1}",
                a.0, a.1, control.0, control.1, b.0, b.1
            ),
            None => format!("M{:.1} {:.1}L{:.1} {:.1}", a.0, a.1, b.0, b.1),
        };
        for (colour, width, opacity) in &strokes {
            writeln!(
                out,
                "<path d=\"{path}\" fill=\"none\" stroke=\"{colour}\" stroke-width=\"{width}\" stroke-opacity=\"{opacity}\"/>"
            )?;
        }
    }
    Ok(())
}

/// Text on a plate of the zone's colour, so that a track doesn't cross it.
fn label(
    out: &mut String,
    frame: Frame,
    size: u8,
    style: &str,
    plate: impl fmt::Display,
    text: &str,
) -> fmt::Result {
    let Frame {
        x,
        y,
        width,
        height,
    } = frame;
    writeln!(
        out,
        "<rect x=\"{x:.1}\" y=\"{y:.1}\" width=\"{width:.1}\" height=\"{height:.1}\" rx=\"4\" fill=\"{plate}\"/><text x=\"{:.1}\" y=\"{:.1}\" font-size=\"{size}\" text-anchor=\"middle\" {style}>{text}</text>",
        x + width / 2.0,
        y + height / 2.0 + f64::from(size) * 0.36
    )
}

fn draw_names(
    out: &mut String,
    map: &Map,
    layout: &Layout,
    obstacles: &mut Obstacles,
) -> fmt::Result {
    for (number, (zone, frame)) in map.zones.iter().zip(&layout.frames).enumerate() {
        let (fill, line) = of_kind(zone.kind);
        let style = format!("fill=\"{line}\" font-weight=\"bold\"");
        let name = map.zone_in_words(number);
        label(out, obstacles.name(*frame, &name), 15, &style, fill, &name)?;
    }
    Ok(())
}

fn draw_vertices(
    out: &mut String,
    map: &Map,
    layout: &Layout,
    obstacles: &mut Obstacles,
) -> fmt::Result {
    for zone in &map.zones {
        let (fill, line) = of_kind(zone.kind);
        for (place, &vertex) in zone.vertices.iter().enumerate() {
            let (x, y) = layout.spots[usize::from(vertex)];
            writeln!(
                out,
                "<circle class=\"point\" id=\"point-{vertex}\" cx=\"{x:.1}\" cy=\"{y:.1}\" r=\"{RADIUS}\" fill=\"{PAPER}\" stroke=\"{line}\" stroke-width=\"2\"/>"
            )?;
            if place == 0 {
                draw_first(out, (x - 15.0, y - 15.0), line)?;
            }
            let style = format!("fill=\"{INK}\"");
            let frame = obstacles.number(vertex);
            label(out, frame, 13, &style, fill, &vertex.to_string())?;
        }
    }
    Ok(())
}

/// The mark of a zone's first listed vertex, pointing down to the right.
fn draw_first(out: &mut String, (x, y): Spot, colour: impl fmt::Display) -> fmt::Result {
    writeln!(
        out,
        "<path class=\"first\" d=\"M{x:.1} {y:.1}l-12 -4l8 -8z\" fill=\"{colour}\"/>"
    )
}

fn draw_goal(out: &mut String, robot: usize, (x, y): Spot) -> fmt::Result {
    let colour = robot_colour(robot);
    writeln!(
        out,
        "<g class=\"goal\" id=\"goal-{robot}\" transform=\"translate({x:.1} {y:.1})\"><path d=\"M9 -17V-42\" stroke=\"{colour}\" stroke-width=\"2\"/><rect x=\"9\" y=\"-43\" width=\"26\" height=\"17\" rx=\"2\" fill=\"{PAPER}\" stroke=\"{colour}\" stroke-width=\"2\"/><text x=\"22\" y=\"-30\" font-size=\"12\" font-weight=\"bold\" text-anchor=\"middle\" fill=\"{colour}\">{robot}</text></g>"
    )
}

fn draw_robot(out: &mut String, robot: usize, vertex: u8, (x, y): Spot) -> fmt::Result {
    writeln!(
        out,
        "<g class=\"cart\" id=\"cart-{robot}\" data-point=\"{vertex}\" transform=\"translate({x:.1} {y:.1})\"><circle r=\"16\" fill=\"{}\"/><text y=\"5\" font-size=\"15\" font-weight=\"bold\" text-anchor=\"middle\" fill=\"{PAPER}\">{robot}</text></g>",
        robot_colour(robot)
    )
}

/// What the legend explains.
enum Item {
    Kind(ZoneKind),
    Robot(String),
    Goal,
    First,
}

impl Item {
    fn words(&self) -> String {
        match self {
            Item::Kind(ZoneKind::Ring) => "ring (forward is clockwise)".to_string(),
            Item::Kind(kind) => kind.word().to_string(),
            Item::Robot(words) => words.clone(),
            Item::Goal => "goal of a cart".to_string(),
            Item::First => "first listed point".to_string(),
        }
    }
}

fn legend_items(map: &Map, placing: &Placing, robot: &str) -> Vec<Item> {
    let kinds = KINDS.into_iter().map(|(kind, _, _)| kind);
    let mut items: Vec<Item> = kinds
        .filter(|kind| map.zones.iter().any(|zone| zone.kind == *kind))
        .map(Item::Kind)
        .collect();
    items.push(Item::First);
    if !placing.robots.is_empty() {
        items.extend([Item::Robot(robot.to_string()), Item::Goal]);
    }
    items
}

/// Where the items go, in as many lines as they need.
fn legend_spots(items: &[Item], width: f64) -> (Vec<Spot>, usize) {
    let mut spots = Vec::new();
    let (mut x, mut lines) = (24.0, 1);
    for item in items {
        let length = 30.0 + 8.4 * item.words().len() as f64 + 20.0;
        if x + length > width && x > 24.0 {
            x = 24.0;
            lines += 1;
        }
        spots.push((x, (lines - 1) as f64 * LEGEND));
        x += length;
    }
    (spots, lines)
}

fn draw_item(out: &mut String, item: &Item, (x, y): Spot) -> fmt::Result {
    match item {
        Item::Kind(kind) => {
            let (fill, line) = of_kind(*kind);
            writeln!(
                out,
                "<rect x=\"{x:.1}\" y=\"{:.1}\" width=\"22\" height=\"16\" rx=\"4\" fill=\"{fill}\" stroke=\"{line}\" stroke-width=\"1.5\"/>",
                y - 8.0
            )?;
        }
        Item::Robot(_) => writeln!(
            out,
            "<circle cx=\"{:.1}\" cy=\"{y:.1}\" r=\"9\" fill=\"{}\"/>",
            x + 11.0,
            robot_colour(0)
        )?,
        Item::Goal => writeln!(
            out,
            "<path d=\"M{:.1} {:.1}v-18h14v11h-14\" fill=\"none\" stroke=\"{}\" stroke-width=\"2\"/>",
            x + 5.0,
            y + 9.0,
            robot_colour(0)
        )?,
        Item::First => draw_first(out, (x + 16.0, y + 6.0), INK)?,
    }
    writeln!(
        out,
        "<text x=\"{:.1}\" y=\"{:.1}\" font-size=\"14\" fill=\"{INK}\">{}</text>",
        x + 30.0,
        y + 5.0,
        item.words()
    )
}
