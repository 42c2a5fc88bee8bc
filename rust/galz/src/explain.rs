//! What a returned number and place mean, in words.

use crate::blocks::{FileKind, BLOCK, PAYLOAD};
use crate::fault::Fault;
use crate::map::Map;
use crate::moves;
use crate::placing::Placing;
use crate::plan;
use crate::service::{Service, ROOM};
use crate::words::count;
use crate::yard::Files;

/// Says what the proved library's refusal of these files means. The words
/// are found by reading the files again; if that reading doesn't come to the
/// same number and place, the table's words for the number are given.
pub fn explain(service: Service, files: &Files, room: usize, number: u32, place: u32) -> String {
    let found = match number {
        60 => short_buffer(service, files, room),
        61 => over_limit(service, files),
        _ => fault(service, files)
            .filter(|fault| (fault.number, fault.place) == (number, place))
            .map(|fault| fault.words),
    };
    found.unwrap_or_else(|| format!("{} (place {place})", general(number)))
}

/// The first fault that reading the files finds.
pub fn fault(service: Service, files: &Files) -> Option<Fault> {
    find(service, files).err()
}

fn find(service: Service, files: &Files) -> Result<(), Fault> {
    let map = Map::read(&files.map).accepted()?;
    let placing = Placing::read(&map, &files.placing).accepted()?;
    match service.input() {
        FileKind::Plan => plan::follow(&map, &placing, &files.plan).map(|_| ()),
        _ => moves::replay(&map, &placing, &files.moves).map(|_| ()),
    }
}

fn short_buffer(service: Service, files: &Files, room: usize) -> Option<String> {
    let answer = service.call(files, ROOM);
    let kind = service.answer()?;
    (answer.number == 0).then(|| {
        format!(
            "the {} takes {} ({}), but the buffer lent has {}",
            kind.word(),
            count(answer.bytes.len(), "byte"),
            count(answer.bytes.len() / BLOCK, "block"),
            count(room, "byte")
        )
    })
}

fn over_limit(service: Service, files: &Files) -> Option<String> {
    let kind = service.answer()?;
    let most = kind.most_blocks();
    let payload = most * PAYLOAD;
    let what = match kind {
        FileKind::Plan => {
            let moves = moves::read(&files.moves).ok()?;
            let map = Map::read(&files.map).accepted().ok()?;
            let crossings = moves
                .iter()
                .filter(|next| map.zone_of(next.from) != map.zone_of(next.to))
                .count();
            format!("{crossings} of the moves go between zones, and a plan with as many steps")
        }
        _ => format!(
            "carrying the plan out takes more than {} moves, and a {} of them",
            (payload - 2) / 3,
            kind.word()
        ),
    };
    Some(format!(
        "{what} doesn't fit {most} blocks ({payload} payload bytes), the most that such a file has"
    ))
}

/// Document 01's words for a number.
pub fn general(number: u32) -> &'static str {
    match number {
        11 | 21 | 31 | 41 => "a file has length 0, isn't whole blocks, or is over its limit",
        12 | 22 | 32 | 42 => "a block's checksum is wrong",
        13 | 23 | 33 | 43 => "bytes 0-3 of a block are wrong",
        14 | 24 | 34 | 44 => "fill or padding of a block is wrong",
        15 | 25 | 35 | 45 => {
            "a payload ends before the field to be read, or goes on after the last"
        }
        16 => "a count or size is beyond its range, or a kind isn't from 1 to 4",
        17 => "a point isn't below the point count or is listed twice, or some point is in no zone",
        18 => "the ends or the order of a track are wrong",
        19 => "a zone isn't of its kind",
        26 => "the cart count is beyond its range",
        27 => "a start isn't below the point count or is repeated",
        28 => "a goal isn't below the point count or is repeated",
        36 | 46 => "a cart isn't below the cart count, or a point isn't below the point count",
        37 => "there is no track, or both points are in the same zone",
        47 => "there is no track",
        38 => "the cart can't leave there",
        39 => "the target zone is full, or behind or the follow list is unmet",
        48 => "the cart isn't at from, or to is taken",
        50 => "the goals aren't in the reached configuration",
        51 => "the list ends off a goal",
        60 => "the buffer is shorter than the answer",
        61 => "the answer is over its kind's blocks",
        _ => "the number isn't one of document 01",
    }
}
