//! The plan file: following its steps over configurations.

use crate::answer::Refusal;
use crate::blocks::{self, Kind};
use crate::map::Map;
use crate::placing::Placing;
use crate::state::{State, ROBOTS};
use crate::zones::Configuration;

/// One step of a plan. Its ends are slots.
pub(crate) struct Step<'a> {
    pub robot: u8,
    pub from: usize,
    pub to: usize,
    pub behind: u8,
    /// The new arrangement, where the step fills a clique.
    pub follow: Option<&'a [u8]>,
}

/// Follows a plan from the starts to the goals and hands over each good step.
///
/// A step's bytes are read only after the steps before it are followed, for
/// the configuration reached decides whether a follow list is there.
pub(crate) fn walk(
    map: &Map,
    placing: &Placing,
    file: &[u8],
    mut accept: impl FnMut(&Step),
) -> Result<(), Refusal> {
    let mut payload = blocks::open(Kind::Plan, file)?;
    let steps = payload.number().ok_or(Kind::Plan.refuse(5, 0))?;
    let starts = State::new(placing.starts());
    let mut configurations: Vec<Configuration> = map
        .zones()
        .iter()
        .map(|zone| Configuration::new(zone, starts.arrangement(zone)))
        .collect();
    let mut list = [0; ROBOTS];

    for number in 0..usize::from(steps) {
        let refusal = |digit| Err(Kind::Plan.refuse(digit, number));
        let Some([robot, from, to, behind]) = payload.array() else {
            return refusal(5);
        };
        let (from, to) = (usize::from(from), usize::from(to));
        let vertices = map.vertices();
        if usize::from(robot) >= placing.robots() || from >= vertices || to >= vertices {
            return refusal(6);
        }
        let (left, entered) = (map.zone_of(from), map.zone_of(to));
        if !map.are_joined(from, to) || left == entered {
            return refusal(7);
        }
        let (from, to) = (map.slot_of(from), map.slot_of(to));
        if !configurations[left].leave(&map.zones()[left], robot, from) {
            return refusal(8);
        }
        let (zone, configuration) = (&map.zones()[entered], &mut configurations[entered]);
        // A full zone isn't to be filled, and lets nobody in.
        let follow = if configuration.is_clique_to_be_filled(zone) {
            let list = &mut list[..zone.size];
            if !payload.fill(list) {
                return refusal(5);
            }
            Some(&*list)
        } else {
            None
        };
        let step = Step {
            robot,
            from,
            to,
            behind,
            follow,
        };
        if !configuration.enter(zone, &step) {
            return refusal(9);
        }
        accept(&step);
    }

    if !payload.is_finished() {
        return Err(Kind::Plan.refuse(5, usize::from(steps)));
    }
    let mut zones = map.zones().iter().zip(&configurations);
    match zones.position(|(zone, reached)| !reached.holds(&placing.wanted()[zone.slots()])) {
        Some(zone) => Err(Refusal::new(50, zone)),
        None => Ok(()),
    }
}
