//! Drawing: the plan that a move list carries out.

use crate::answer::Refusal;
use crate::blocks::{Kind, Writer};
use crate::map::Map;
use crate::moves::{self, Move};
use crate::placing::Placing;
use crate::state::State;
use crate::zones::{Zone, ZoneKind};

/// Writes the plan of a move list; gives the bytes written.
pub(crate) fn draw(
    map: &Map,
    placing: &Placing,
    file: &[u8],
    buffer: &mut [u8],
) -> Result<usize, Refusal> {
    let mut plan = Writer::new(Kind::Plan, buffer);
    let mut steps = 0u16;
    moves::replay(map, placing, file, |state, Move { robot, from, to }| {
        let entered = map.zone_of(to);
        if map.zone_of(from) == entered {
            return;
        }
        let (zone, slot) = (&map.zones()[entered], map.slot_of(to));
        let behind = zone.behind(state, slot);
        plan.push(&[robot as u8, from as u8, to as u8, behind]);
        if is_filling(state, zone) {
            let (below, above) = state.arrangement(zone).split_at(slot - zone.first);
            plan.push(below);
            plan.push(&[robot as u8]);
            plan.push(&above[1..]);
        }
        steps += 1;
    })?;
    plan.finish(steps)
}

/// Whether one more robot fills a clique.
fn is_filling(state: &State, zone: &Zone) -> bool {
    matches!(zone.kind, ZoneKind::Clique)
        && state.taken_in(zone).count_ones() as usize + 1 == zone.size
}
