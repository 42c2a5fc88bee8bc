//! The plan: steps between zones.

use crate::blocks::{self, FileKind};
use crate::configuration::{arrangements, Configuration};
use crate::fault::Fault;
use crate::fields::Fields;
use crate::map::{Map, ZoneKind};
use crate::placing::Placing;
use crate::words::{count, named, verb};

/// A step of a plan.
#[derive(Clone, Debug, PartialEq, Eq)]
pub struct Step {
    pub robot: u8,
    pub from: u8,
    pub to: u8,
    /// 255 for none.
    pub behind: u8,
    /// The new arrangement where the step fills a clique; otherwise empty.
    pub follow: Vec<u8>,
}

/// The payload of a plan.
pub fn payload(steps: &[Step]) -> Vec<u8> {
    let mut payload = (steps.len() as u16).to_be_bytes().to_vec();
    for step in steps {
        payload.extend_from_slice(&[step.robot, step.from, step.to, step.behind]);
        payload.extend_from_slice(&step.follow);
    }
    payload
}

/// The steps of a plan file, for showing them. A follow list is taken where
/// counting robots says that a clique is filled; in a plan that isn't cleared
/// that is a guess, so the plan is only shown if the guess uses up all bytes.
pub fn shown(map: &Map, placing: &Placing, file: &[u8]) -> Result<Vec<Step>, Fault> {
    let payload = blocks::payload(FileKind::Plan, file)?;
    let guessed = split(&payload, Some((map, placing))).or_else(|| split(&payload, None));
    guessed.ok_or_else(|| {
        let words = "the bytes of PLAN don't come out as its count of steps".to_string();
        let fault = Fault::new(35, 0, words);
        follow(map, placing, file).err().unwrap_or(fault)
    })
}

/// Splits a payload into steps, with follow lists if map and placing are
/// given.
fn split(payload: &[u8], yard: Option<(&Map, &Placing)>) -> Option<Vec<Step>> {
    let mut fields = Fields::new(payload);
    let count = fields.word()?;
    let mut inside: Vec<usize> = yard.map_or(Vec::new(), |(map, placing)| {
        let zones = map.zones.iter();
        let starts = |vertices: &Vec<u8>| {
            let mut robots = placing.robots.iter();
            robots
                .by_ref()
                .filter(|(start, _)| vertices.contains(start))
                .count()
        };
        zones.map(|zone| starts(&zone.vertices)).collect()
    });
    let mut steps = Vec::new();
    for _ in 0..count {
        let [robot, from, to, behind] = *fields.bytes(4)? else {
            return None;
        };
        let mut follow = Vec::new();
        if let Some((map, _)) = yard {
            if let Some(left) = map.zone_of(from) {
                inside[left] = inside[left].saturating_sub(1);
            }
            if let Some(entered) = map.zone_of(to) {
                let zone = &map.zones[entered];
                inside[entered] += 1;
                if zone.kind == ZoneKind::Clique && inside[entered] == zone.vertices.len() {
                    follow = fields.bytes(inside[entered])?.to_vec();
                }
            }
        }
        steps.push(Step {
            robot,
            from,
            to,
            behind,
            follow,
        });
    }
    (fields.left() == 0).then_some(steps)
}

/// Follows a plan over an accepted map and placing; gives its steps, or the
/// first fault.
pub fn follow(map: &Map, placing: &Placing, file: &[u8]) -> Result<Vec<Step>, Fault> {
    let payload = blocks::payload(FileKind::Plan, file)?;
    let fields = &mut Fields::new(&payload);
    let Some(count) = fields.word() else {
        let words = "PLAN ends in its step count".to_string();
        return Err(FileKind::Plan.fault(5, 0, words));
    };
    let starts: Vec<u8> = placing.robots.iter().map(|robot| robot.0).collect();
    let arranged = arrangements(map, &starts);
    let mut zones: Vec<Configuration> = arranged
        .iter()
        .map(|arrangement| Configuration::new(arrangement))
        .collect();
    let mut steps = Vec::new();
    for number in 0..usize::from(count) {
        let step = one_step(map, placing, &mut zones, fields).map_err(|(digit, words)| {
            let words = format!("step {number}: {words}");
            FileKind::Plan.fault(digit, number, words)
        })?;
        steps.push(step);
    }
    if fields.left() > 0 {
        let words = format!(
            "PLAN goes on after its {}: {} too many",
            crate::words::count(count.into(), "step"),
            crate::words::count(fields.left(), "byte")
        );
        return Err(FileKind::Plan.fault(5, count.into(), words));
    }
    match unmet_goals(map, placing, &zones) {
        Some((zone, words)) => Err(Fault::new(50, zone, words)),
        None => Ok(steps),
    }
}

/// Reads and follows a step; a fault comes as the last digit and words.
fn one_step(
    map: &Map,
    placing: &Placing,
    zones: &mut [Configuration],
    fields: &mut Fields,
) -> Result<Step, (u32, String)> {
    let left = fields.left();
    let Some(&[robot, from, to, behind]) = fields.bytes(4) else {
        let words = format!("PLAN ends in it: it has {left} of four bytes");
        return Err((5, words));
    };
    if usize::from(robot) >= placing.robots.len() {
        let words = format!("there is no cart {robot}: {}", placing.robots_in_words());
        return Err((6, words));
    }
    for vertex in [from, to] {
        if vertex >= map.vertices {
            let words = format!("there is no point {vertex}: {}", map.vertices_in_words());
            return Err((6, words));
        }
    }
    let (Some(source), Some(target)) = (map.zone_of(from), map.zone_of(to)) else {
        return Err((6, "a point is in no zone".to_string()));
    };
    if !map.are_joined(from, to) {
        return Err((
            7,
            format!("there is no track between points {from} and {to}"),
        ));
    }
    if source == target {
        let words = format!(
            "points {from} and {to} are both in {}, but a step goes from one zone to another",
            map.zone_in_words(source)
        );
        return Err((7, words));
    }
    if !zones[source].holds(robot) {
        let home = zones.iter().position(|zone| zone.holds(robot));
        let words = format!(
            "cart {robot} can't leave {} at point {from}: it is in {}",
            map.zone_in_words(source),
            home.map_or("no zone".to_string(), |zone| map.zone_in_words(zone))
        );
        return Err((8, words));
    }
    let place = map.place_of(from).unwrap_or(0);
    if let Err(refused) = zones[source].leave(&map.zones[source], robot, place) {
        let words = format!(
            "cart {robot} can't leave {} at point {from}: {}",
            map.zone_in_words(source),
            refused.0
        );
        return Err((8, words));
    }
    let (zone, configuration) = (&map.zones[target], &mut zones[target]);
    let entered = map.zone_in_words(target);
    if let Some(full) = configuration.full_in_words(zone) {
        let words = format!("cart {robot} can't enter {entered} at point {to}: {entered} {full}");
        return Err((9, words));
    }
    let mut follow = Vec::new();
    if configuration.is_clique_to_be_filled(zone) {
        let (size, left) = (zone.vertices.len(), fields.left());
        let Some(list) = fields.bytes(size) else {
            let words = format!(
                "it fills {entered}, so a follow list of {} is to be read, but PLAN has only {left} more",
                count(size, "cart number")
            );
            return Err((5, words));
        };
        follow = list.to_vec();
    }
    let step = Step {
        robot,
        from,
        to,
        behind,
        follow,
    };
    let place = map.place_of(to).unwrap_or(0);
    match configuration.enter(zone, &step, place) {
        Ok(()) => Ok(step),
        Err(refused) => {
            let words = format!(
                "cart {robot} can't enter {entered} at point {to}: {}",
                refused.0
            );
            Err((9, words))
        }
    }
}

/// The lowest zone whose goals aren't in its configuration, and why.
fn unmet_goals(map: &Map, placing: &Placing, zones: &[Configuration]) -> Option<(usize, String)> {
    let goals: Vec<u8> = placing.robots.iter().map(|robot| robot.1).collect();
    let wanted = arrangements(map, &goals);
    let robots = 0..placing.robots.len() as u8;
    (0..zones.len()).find_map(|zone| {
        let is_wanted = |robot: &u8| wanted[zone].contains(robot);
        let is_inside = |robot: &u8| zones[zone].holds(*robot);
        let surplus: Vec<u8> = robots
            .clone()
            .filter(|r| is_inside(r) && !is_wanted(r))
            .collect();
        let missing: Vec<u8> = robots
            .clone()
            .filter(|r| is_wanted(r) && !is_inside(r))
            .collect();
        let elsewhere = |robots: &[u8], verb: &str, places: &dyn Fn(u8) -> Option<usize>| {
            let each = robots.iter().map(|&robot| {
                let zone = places(robot).map_or("no zone".to_string(), |z| map.zone_in_words(z));
                format!("cart {robot} {verb} {zone}")
            });
            each.collect::<Vec<_>>().join(", ")
        };
        let mut parts = Vec::new();
        if !missing.is_empty() {
            let place = |robot: u8| zones.iter().position(|zone| zone.holds(robot));
            parts.push(format!(
                "{} {} to end there, but {}",
                named("cart", &missing),
                verb(missing.len(), "is", "are"),
                elsewhere(&missing, "is in", &place)
            ));
        }
        if !surplus.is_empty() {
            let place = |robot: u8| map.zone_of(placing.robots[usize::from(robot)].1);
            parts.push(format!(
                "{} {} there, but {}",
                named("cart", &surplus),
                verb(surplus.len(), "is", "are"),
                elsewhere(&surplus, "has its goal in", &place)
            ));
        }
        if parts.is_empty() {
            parts.extend(zones[zone].unmet(&map.zones[zone], &wanted[zone]));
        }
        (!parts.is_empty()).then(|| {
            let words = format!(
                "the goals in {} can't be reached after the last step: {}",
                map.zone_in_words(zone),
                parts.join("; ")
            );
            (zone, words)
        })
    })
}
