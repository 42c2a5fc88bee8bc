//! Configurations of zones, followed step by step to say why a step fails.

use crate::map::{Map, Zone, ZoneKind};
use crate::plan::Step;
use crate::words::{count, list, named, verb};

/// No robot, where a robot is named.
pub const NOBODY: u8 = 255;

/// The robots of a zone as far as moves inside can't change it: their order
/// in a stack or hall, the cyclic order in a ring, the robots in a clique. A
/// full ring or clique has one robot for each place.
#[derive(Clone)]
pub struct Configuration {
    robots: Vec<u8>,
}

/// Why a robot can't leave or come in.
pub struct Refused(pub String);

impl Configuration {
    /// The configuration of robots on the places of a zone.
    pub fn new(arrangement: &[u8]) -> Configuration {
        let robots = arrangement.iter().copied();
        Configuration {
            robots: robots.filter(|&robot| robot != NOBODY).collect(),
        }
    }

    pub fn holds(&self, robot: u8) -> bool {
        self.robots.contains(&robot)
    }

    fn is_full(&self, zone: &Zone) -> bool {
        self.robots.len() == zone.vertices.len()
    }

    /// Whether one more robot fills a clique.
    pub fn is_clique_to_be_filled(&self, zone: &Zone) -> bool {
        zone.kind == ZoneKind::Clique && self.robots.len() + 1 == zone.vertices.len()
    }

    /// Takes a robot that is inside out at a place, or says why it can't
    /// leave there.
    pub fn leave(&mut self, zone: &Zone, robot: u8, place: usize) -> Result<(), Refused> {
        let index = self.robots.iter().position(|&other| other == robot);
        let index = index.ok_or(Refused(format!("cart {robot} isn't there")))?;
        match zone.kind {
            ZoneKind::Stack | ZoneKind::Hall => {
                let (below, above) = (&self.robots[..index], &self.robots[index + 1..]);
                no_room(zone, below, above, place, &format!("cart {robot}"))?;
            }
            ZoneKind::Clique | ZoneKind::Ring => {
                if self.is_full(zone) && index != place {
                    return Err(Refused(format!(
                        "all its points are taken, so no cart in it can move, and cart {robot} stands on point {}",
                        zone.vertices[index]
                    )));
                }
            }
        }
        self.robots.remove(index);
        Ok(())
    }

    /// Lets a step's robot in at a place, or says what isn't met. The zone
    /// isn't full.
    pub fn enter(&mut self, zone: &Zone, step: &Step, place: usize) -> Result<(), Refused> {
        match zone.kind {
            ZoneKind::Stack | ZoneKind::Hall => {
                let below = match step.behind {
                    NOBODY => 0,
                    behind => self.index_of(behind)? + 1,
                };
                let (lower, higher) = self.robots.split_at(below);
                no_room(zone, lower, higher, place, "it").map_err(|Refused(words)| {
                    let behind = named("cart", &lower[below.saturating_sub(1)..]);
                    Refused(format!("with {behind} behind it, {words}"))
                })?;
                self.robots.insert(below, step.robot);
            }
            ZoneKind::Clique => {
                if step.behind != NOBODY {
                    return Err(Refused(format!(
                        "behind names cart {}, but for a clique it must be none (255)",
                        step.behind
                    )));
                }
                self.robots.push(step.robot);
                if self.is_full(zone) {
                    self.check_follow(zone, step, place)?;
                    self.robots.clone_from(&step.follow);
                }
            }
            ZoneKind::Ring => {
                let index = match (self.robots.is_empty(), step.behind) {
                    (true, NOBODY) => 0,
                    (false, NOBODY) => {
                        return Err(Refused(format!(
                            "behind names no cart, but {} {} in it: the first cart met going backward from point {} is to be named",
                            named("cart", &self.robots),
                            verb(self.robots.len(), "is", "are"),
                            step.to
                        )))
                    }
                    (_, behind) => self.index_of(behind)? + 1,
                };
                self.robots.insert(index, step.robot);
                if self.is_full(zone) {
                    let turn = (place + self.robots.len() - index) % self.robots.len();
                    self.robots.rotate_right(turn);
                }
            }
        }
        Ok(())
    }

    /// The index of the robot named as behind.
    fn index_of(&self, behind: u8) -> Result<usize, Refused> {
        let index = self.robots.iter().position(|&robot| robot == behind);
        index.ok_or_else(|| {
            Refused(format!(
                "behind names cart {behind}, which isn't in it: {} {}",
                named("cart", &self.robots),
                verb(self.robots.len().max(1), "is", "are")
            ))
        })
    }

    /// Whether a follow list is a new arrangement of the robots inside, the
    /// entering one among them.
    fn check_follow(&self, zone: &Zone, step: &Step, place: usize) -> Result<(), Refused> {
        let refuse = |words: String| Err(Refused(format!("its follow list {words}")));
        let follow = &step.follow;
        for (index, robot) in follow.iter().enumerate() {
            if !self.robots.contains(robot) {
                return refuse(format!(
                    "names cart {robot}, but the carts to be in it are {}",
                    list(&self.robots)
                ));
            }
            if follow[..index].contains(robot) {
                return refuse(format!("names cart {robot} twice"));
            }
        }
        if follow[place] != step.robot {
            return refuse(format!(
                "has cart {} on point {}, where cart {} comes in",
                follow[place], zone.vertices[place], step.robot
            ));
        }
        Ok(())
    }

    /// Why the goals of a zone, a robot or nobody for each place, aren't in
    /// its configuration. The robots are the same.
    pub fn unmet(&self, zone: &Zone, wanted: &[u8]) -> Option<String> {
        let goals = Configuration::new(wanted).robots;
        let are_met = match zone.kind {
            ZoneKind::Stack | ZoneKind::Hall => goals == self.robots,
            ZoneKind::Clique => !self.is_full(zone) || goals == self.robots,
            ZoneKind::Ring if self.is_full(zone) => goals == self.robots,
            ZoneKind::Ring => {
                let turn = goals.first().and_then(|&robot| {
                    let mut robots = self.robots.iter();
                    robots.position(|&other| other == robot)
                });
                let (first, later) = self.robots.split_at(turn.unwrap_or(0));
                later.iter().chain(first).eq(&goals)
            }
        };
        let (reached, asked) = (list(&self.robots), list(&goals));
        let words = match zone.kind {
            ZoneKind::Stack | ZoneKind::Hall => format!(
                "its carts stand in the order {reached}, the goals ask for {asked}, and carts can't pass each other in it"
            ),
            ZoneKind::Clique | ZoneKind::Ring if self.is_full(zone) => format!(
                "all its points are taken, so no cart in it can move: from its first point on they hold carts {reached}, the goals ask for {asked}"
            ),
            ZoneKind::Clique | ZoneKind::Ring => format!(
                "going forward its carts follow each other as {reached}, the goals ask for {asked}, and carts can't pass each other in it"
            ),
        };
        (!are_met).then_some(words)
    }

    /// Per place how the zone is full.
    pub fn full_in_words(&self, zone: &Zone) -> Option<String> {
        self.is_full(zone).then(|| {
            let points = zone.vertices.len();
            format!(
                "is full, with {} on its {}",
                named("cart", &self.robots),
                count(points, "point")
            )
        })
    }
}

/// Says which side of a place has too few places for the robots there.
fn no_room(
    zone: &Zone,
    below: &[u8],
    above: &[u8],
    place: usize,
    whom: &str,
) -> Result<(), Refused> {
    let point = zone.vertices[place];
    let over = zone.vertices.len() - place - 1;
    for (robots, places, side) in [(below, place, "before"), (above, over, "after")] {
        if robots.len() > places {
            let room = match places {
                0 => "no place comes".to_string(),
                _ => format!(
                    "only {} {}",
                    count(places, "place"),
                    verb(places, "comes", "come")
                ),
            };
            return Err(Refused(format!(
                "{} {} {side} {whom} in listed order ({}), but {room} {side} point {point}",
                count(robots.len(), "cart"),
                verb(robots.len(), "stands", "stand"),
                named("cart", robots),
            )));
        }
    }
    Ok(())
}

/// The robot on each place of each zone, or nobody.
pub fn arrangements(map: &Map, vertex_of: &[u8]) -> Vec<Vec<u8>> {
    let robot_on = |vertex: &u8| {
        let robot = vertex_of.iter().position(|other| other == vertex);
        robot.map_or(NOBODY, |robot| robot as u8)
    };
    let zones = map.zones.iter();
    zones
        .map(|zone| zone.vertices.iter().map(robot_on).collect())
        .collect()
}
