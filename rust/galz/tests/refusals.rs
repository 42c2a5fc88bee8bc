//! Each returned number of document 01 is made to occur, through the program
//! and the proved library, with its explanation.
#![forbid(unsafe_code)]

mod help;

use std::collections::BTreeSet;

use galz::explain::{explain, fault, general};
use galz::service::{Service, ROOM};
use galz::yard::Files;
use help::{files, folder_of, galz, Printed};
use writing::{file, mend, MAP, MOVE_LIST, PLACING, PLAN};

/// Every number of the table.
const NUMBERS: [u32; 38] = [
    11, 12, 13, 14, 15, 16, 17, 18, 19, 21, 22, 23, 24, 25, 26, 27, 28, 31, 32, 33, 34, 35, 36, 37,
    38, 39, 41, 42, 43, 44, 45, 46, 47, 48, 50, 51, 60, 61,
];

/// A yard of all four kinds with a plan and the moves it is resolved into.
const YARD: &str = "\
zone 0 stack 0 1
zone 1 hall 2 3 4
zone 2 clique 5 6 7
zone 3 ring 8 9 10 11
track 0 2
track 4 5
track 7 8
track 3 9
cart 0 start 1 goal 2
cart 1 start 5 goal 6
cart 2 start 8 goal 9
plan
step cart 0 from 0 to 2
moves
move cart 0 from 1 to 0
move cart 0 from 0 to 2
move cart 1 from 5 to 6
move cart 2 from 8 to 9
";

/// One refusal: a service, the files, and what is printed.
struct Case {
    service: Service,
    files: Files,
    room: Option<usize>,
    printed: &'static str,
}

fn good() -> Files {
    files(YARD)
}

/// The yard with lines taken out and others put at its end.
fn with_lines(without: &str, lines: &str) -> Files {
    let kept = YARD.lines().filter(|line| !line.starts_with(without));
    let text = kept.collect::<Vec<_>>().join("\n") + "\n" + lines;
    files(&text)
}

/// The yard with one line in place of another.
fn with_line(old: &str, new: &str) -> Files {
    assert_eq!(YARD.matches(old).count(), 1, "{old}");
    files(&YARD.replace(old, new))
}

fn with_plan(steps: &str) -> Files {
    with_lines("step", steps)
}

fn with_moves(moves: &str) -> Files {
    with_lines("move ", &moves.replace("\n\n", "\n"))
}

/// The good files with the payload of one changed.
fn with_payload(kind: u8, change: impl FnOnce(&mut Vec<u8>)) -> Files {
    let mut files = good();
    let bytes = by_kind(&mut files, kind);
    let mut payload = writing::payload(bytes);
    change(&mut payload);
    *bytes = file(kind, &payload);
    files
}

/// The good files with bytes of one changed, and its checksum mended.
fn with_bytes(kind: u8, change: impl FnOnce(&mut Vec<u8>)) -> Files {
    let mut files = good();
    let bytes = by_kind(&mut files, kind);
    change(bytes);
    if bytes.len() == 512 {
        mend(bytes, 0);
    }
    files
}

/// The good files with a byte of one changed, and its checksum left.
fn with_byte(kind: u8, byte: usize) -> Files {
    let mut files = good();
    by_kind(&mut files, kind)[byte] ^= 1;
    files
}

fn by_kind(files: &mut Files, kind: u8) -> &mut Vec<u8> {
    match kind {
        MAP => &mut files.map,
        PLACING => &mut files.placing,
        PLAN => &mut files.plan,
        _ => &mut files.moves,
    }
}

fn judged(files: Files, printed: &'static str) -> Case {
    Case {
        service: Service::Judge,
        files,
        room: None,
        printed,
    }
}

fn drawn(files: Files, printed: &'static str) -> Case {
    Case {
        service: Service::Draw,
        ..judged(files, printed)
    }
}

/// The lengths, checksums, heads and fills of the four files.
fn block_cases() -> Vec<Case> {
    vec![
        judged(
            with_bytes(MAP, Vec::clear),
            "refused 11 0\nMAP is missing or empty\n",
        ),
        judged(
            with_bytes(MAP, |bytes| bytes.truncate(500)),
            "refused 11 0\nMAP has 500 bytes, which isn't whole blocks of 512\n",
        ),
        judged(
            with_bytes(MAP, |bytes| bytes.resize(5120, 0)),
            "refused 11 0\nMAP has ten blocks, but a map has at most 9\n",
        ),
        judged(
            with_bytes(PLACING, Vec::clear),
            "refused 21 0\nPLACING is missing or empty\n",
        ),
        judged(
            with_bytes(PLAN, Vec::clear),
            "refused 31 0\nPLAN is missing or empty\n",
        ),
        drawn(
            with_bytes(MOVE_LIST, Vec::clear),
            "refused 41 0\nMOVES is missing or empty\n",
        ),
        judged(
            with_byte(MAP, 6),
            "refused 12 0\nMAP, block 0: the checksum stored is 842C, but the bytes before it give 832C\n",
        ),
        judged(
            with_byte(PLACING, 6),
            "refused 22 0\nPLACING, block 0: the checksum stored is E9EA, but the bytes before it give EAEA\n",
        ),
        judged(
            with_byte(PLAN, 510),
            "refused 32 0\nPLAN, block 0: the checksum stored is F8F9, but the bytes before it give F9F9\n",
        ),
        drawn(
            with_byte(MOVE_LIST, 511),
            "refused 42 0\nMOVES, block 0: the checksum stored is ECDB, but the bytes before it give ECDA\n",
        ),
        judged(
            with_bytes(MAP, |bytes| bytes[0] = 3),
            "refused 13 0\nMAP, block 0: byte 0 is 3 (plan), but a map has 1 there\n",
        ),
        judged(
            with_bytes(PLACING, |bytes| bytes[0] = 77),
            "refused 23 0\nPLACING, block 0: byte 0 is 77, but a placing has 2 there\n",
        ),
        judged(
            with_bytes(PLAN, |bytes| bytes[1] = 9),
            "refused 33 0\nPLAN, block 0: byte 1 is 9, but must be 0\n",
        ),
        drawn(
            with_bytes(MOVE_LIST, |bytes| bytes[3] = 4),
            "refused 43 0\nMOVES, block 0: bytes 2-3 say that it is block 4, but it stands as block 0\n",
        ),
        judged(
            with_bytes(MAP, |bytes| bytes[4..6].fill(0)),
            "refused 14 0\nMAP, block 0: the fill is 0, but the last block's is 1 to 504\n",
        ),
        judged(
            with_bytes(PLACING, |bytes| bytes[5] = 6),
            "refused 24 0\nPLACING, block 0: byte 12 is 9, but bytes after the fill of 6 must be 0\n",
        ),
        judged(
            with_bytes(PLAN, |bytes| {
                mend(bytes, 0);
                let again = bytes.clone();
                bytes.extend_from_slice(&again);
            }),
            "refused 34 0\nPLAN, block 0: the fill is 6, but every block before the last has 504\n",
        ),
        drawn(
            with_bytes(MOVE_LIST, |bytes| bytes[509] = 1),
            "refused 44 0\nMOVES, block 0: byte 509 is 1, but bytes after the fill of 14 must be 0\n",
        ),
    ]
}

/// The fields of map and placing.
fn yard_cases() -> Vec<Case> {
    vec![
        judged(
            with_payload(MAP, |payload| payload.truncate(22)),
            "refused 15 22\nMAP ends at payload byte 22, where the track count was to be read\n",
        ),
        judged(
            with_payload(MAP, |payload| payload.truncate(25)),
            "refused 15 25\nMAP ends at payload byte 25, where the second point of track 0 was to be read\n",
        ),
        judged(
            with_payload(MAP, |payload| payload.extend([0, 0])),
            "refused 15 52\nMAP goes on after its last track: two bytes too many, from payload byte 52 on\n",
        ),
        judged(
            with_payload(MAP, |payload| payload[0] = 129),
            "refused 16 0\nMAP counts 129 points, but a map has 1 to 128\n",
        ),
        judged(
            with_payload(MAP, |payload| payload[1] = 0),
            "refused 16 1\nMAP counts 0 zones, but a map has 1 to 64\n",
        ),
        judged(
            with_payload(MAP, |payload| payload[2] = 7),
            "refused 16 2\nzone 0 has kind 7, but kinds are 1 stack, 2 hall, 3 clique, 4 ring\n",
        ),
        judged(
            with_payload(MAP, |payload| payload[17] = 2),
            "refused 16 17\nzone 3 is a ring of two points, but a ring has at least three points\n",
        ),
        judged(
            with_payload(MAP, |payload| payload[22..24].copy_from_slice(&[8, 1])),
            "refused 16 22\nMAP counts 2049 tracks, but a map has at most 2048\n",
        ),
        judged(
            with_line("zone 0 stack 0 1", "points 12\nzone 0 stack 0 12"),
            "refused 17 5\nzone 0 lists point 12, but the map has points 0 to 11\n",
        ),
        judged(
            with_line("zone 1 hall 2 3 4", "zone 1 hall 2 1 4"),
            "refused 17 9\nzone 1 lists point 1, which zone 0 lists\n",
        ),
        judged(
            with_line("zone 1 hall 2 3 4", "zone 1 hall 2 2 4"),
            "refused 17 9\nzone 1 lists point 2 twice\n",
        ),
        judged(
            with_line("zone 0 stack 0 1", "points 14\nzone 0 stack 0 1"),
            "refused 17 22\npoints 12 and 13 are in no zone\n",
        ),
        judged(
            with_lines("track", "tracks listed\ntrack 1 1\n"),
            "refused 18 24\ntrack 1-1 joins point 1 to itself\n",
        ),
        judged(
            with_lines("track", "tracks listed\ntrack 2 1\n"),
            "refused 18 24\ntrack 2-1 has its higher point first\n",
        ),
        judged(
            with_lines("track", "tracks listed\ntrack 0 1\ntrack 0 12\n"),
            "refused 18 26\ntrack 0-12 ends at point 12, but the map has points 0 to 11\n",
        ),
        judged(
            with_lines("track", "tracks listed\ntrack 0 1\ntrack 0 1\n"),
            "refused 18 26\ntrack 0-1 is written twice\n",
        ),
        judged(
            with_lines("track", "tracks listed\ntrack 0 2\ntrack 0 1\n"),
            "refused 18 26\ntrack 0-1 comes after track 0-2, but tracks must rise\n",
        ),
        judged(
            with_line("track 0 2", "track 1 2"),
            "refused 19 0\nstack 0 lists points 0 and 1: only point 0, its first, may have a track outside, but there is a track from 1 to 2\n",
        ),
        judged(
            with_line("track 0 2", "track 0 2\ntrack 2 4"),
            "refused 19 1\nhall 1 lists points 2, 3 and 4: only neighbours in listed order are joined, but there is a track 2-4\n",
        ),
        judged(
            with_lines("track", "tracks listed\n"),
            "refused 19 0\nstack 0 lists points 0 and 1: neighbours in listed order are joined, but there is no track 0-1\n",
        ),
        judged(
            with_payload(PLACING, |payload| payload.truncate(4)),
            "refused 25 4\nPLACING ends at payload byte 4, where the goal of cart 1 was to be read\n",
        ),
        judged(
            with_payload(PLACING, |payload| payload.push(0)),
            "refused 25 7\nPLACING goes on after its last cart: one byte too many, from payload byte 7 on\n",
        ),
        judged(
            with_payload(PLACING, |payload| payload[0] = 65),
            "refused 26 0\nPLACING counts 65 carts, but there are at most 64\n",
        ),
        judged(
            with_payload(PLACING, |payload| payload[0] = 13),
            "refused 26 0\nPLACING counts 13 carts, but the map has only twelve points\n",
        ),
        judged(
            with_line("cart 1 start 5", "cart 1 start 12"),
            "refused 27 3\ncart 1 starts at point 12, but the map has points 0 to 11\n",
        ),
        judged(
            with_line("cart 1 start 5", "cart 1 start 1"),
            "refused 27 3\ncart 1 starts at point 1, and so does cart 0\n",
        ),
        judged(
            with_line("goal 9", "goal 6"),
            "refused 28 6\ncart 2 has its goal at point 6, and so does cart 1\n",
        ),
    ]
}

/// The steps of a plan.
fn plan_cases() -> Vec<Case> {
    vec![
        judged(
            with_payload(PLAN, |payload| payload.truncate(1)),
            "refused 35 0\nPLAN ends in its step count\n",
        ),
        judged(
            with_payload(PLAN, |payload| payload.truncate(4)),
            "refused 35 0\nstep 0: PLAN ends in it: it has 2 of four bytes\n",
        ),
        judged(
            with_payload(PLAN, |payload| payload.extend([7, 7, 7])),
            "refused 35 1\nPLAN goes on after its one step: three bytes too many\n",
        ),
        judged(
            files("zone 0 clique 0 1\nzone 1 hall 2\ntrack 1 2\ncart 0 start 0 goal 0\ncart 1 start 2 goal 1\nplan\nstep cart 1 from 2 to 1\n"),
            "refused 35 0\nstep 0: it fills clique 0, so a follow list of two cart numbers is to be read, but PLAN has only 0 more\n",
        ),
        judged(
            with_plan("step cart 3 from 0 to 2\n"),
            "refused 36 0\nstep 0: there is no cart 3: the placing has carts 0 to 2\n",
        ),
        judged(
            with_plan("step cart 0 from 0 to 12\n"),
            "refused 36 0\nstep 0: there is no point 12: the map has points 0 to 11\n",
        ),
        judged(
            with_plan("step cart 0 from 0 to 3\n"),
            "refused 37 0\nstep 0: there is no track between points 0 and 3\n",
        ),
        judged(
            with_plan("step cart 0 from 1 to 0\n"),
            "refused 37 0\nstep 0: points 1 and 0 are both in stack 0, but a step goes from one zone to another\n",
        ),
        judged(
            with_plan("step cart 0 from 0 to 2\nstep cart 1 from 3 to 9 behind 2\n"),
            "refused 38 1\nstep 1: cart 1 can't leave hall 1 at point 3: it is in clique 2\n",
        ),
        judged(
            files("zone 0 hall 0 1 2 3\nzone 1 hall 4\ntrack 1 4\ncart 0 start 0 goal 0\ncart 1 start 1 goal 1\ncart 2 start 3 goal 4\nplan\nstep cart 2 from 1 to 4\n"),
            "refused 38 0\nstep 0: cart 2 can't leave hall 0 at point 1: two carts stand before cart 2 in listed order (carts 0 and 1), but only one place comes before point 1\n",
        ),
        judged(
            files("zone 0 hall 2 0 1\nzone 1 hall 3\ntrack 1 3\ncart 0 start 2 goal 3\ncart 1 start 1 goal 1\nplan\nstep cart 0 from 1 to 3\n"),
            "refused 38 0\nstep 0: cart 0 can't leave hall 0 at point 1: one cart stands after cart 0 in listed order (cart 1), but no place comes after point 1\n",
        ),
        judged(
            files("zone 0 ring 0 1 2\nzone 1 hall 3\ntrack 1 3\ncart 0 start 0 goal 3\ncart 1 start 1 goal 1\ncart 2 start 2 goal 2\nplan\nstep cart 0 from 1 to 3\n"),
            "refused 38 0\nstep 0: cart 0 can't leave ring 0 at point 1: all its points are taken, so no cart in it can move, and cart 0 stands on point 0\n",
        ),
        judged(
            files("zone 0 hall 0\nzone 1 hall 1\ntrack 0 1\ncart 0 start 0 goal 1\ncart 1 start 1 goal 0\nplan\nstep cart 0 from 0 to 1\n"),
            "refused 39 0\nstep 0: cart 0 can't enter hall 1 at point 1: hall 1 is full, with cart 1 on its one point\n",
        ),
        judged(
            with_plan("step cart 0 from 0 to 2 behind 1\n"),
            "refused 39 0\nstep 0: cart 0 can't enter hall 1 at point 2: behind names cart 1, which isn't in it: no cart is\n",
        ),
        judged(
            files("zone 0 hall 0\nzone 1 hall 1 2 3\ntrack 0 1\ncart 0 start 0 goal 1\ncart 1 start 1 goal 2\nplan\nstep cart 0 from 0 to 1 behind 1\n"),
            "refused 39 0\nstep 0: cart 0 can't enter hall 1 at point 1: with cart 1 behind it, one cart stands before it in listed order (cart 1), but no place comes before point 1\n",
        ),
        judged(
            files("zone 0 hall 0\nzone 1 hall 1 2 3\ntrack 0 3\ncart 0 start 0 goal 1\ncart 1 start 1 goal 2\nplan\nstep cart 0 from 0 to 3\n"),
            "refused 39 0\nstep 0: cart 0 can't enter hall 1 at point 3: with no cart behind it, one cart stands after it in listed order (cart 1), but no place comes after point 3\n",
        ),
        judged(
            files("zone 0 ring 0 1 2 3\nzone 1 hall 4\ntrack 0 4\ncart 0 start 0 goal 1\ncart 1 start 4 goal 0\nplan\nstep cart 1 from 4 to 0\n"),
            "refused 39 0\nstep 0: cart 1 can't enter ring 0 at point 0: behind names no cart, but cart 0 is in it: the first cart met going backward from point 0 is to be named\n",
        ),
        judged(
            files("zone 0 clique 0 1 2\nzone 1 hall 3\ntrack 1 3\ncart 0 start 3 goal 0\ncart 1 start 0 goal 1\nplan\nstep cart 0 from 3 to 1 behind 1\n"),
            "refused 39 0\nstep 0: cart 0 can't enter clique 0 at point 1: behind names cart 1, but for a clique it must be none (255)\n",
        ),
        judged(
            files("zone 0 clique 0 1\nzone 1 hall 2\ntrack 1 2\ncart 0 start 0 goal 0\ncart 1 start 2 goal 1\nplan\nstep cart 1 from 2 to 1 follow 1 0\n"),
            "refused 39 0\nstep 0: cart 1 can't enter clique 0 at point 1: its follow list has cart 0 on point 1, where cart 1 comes in\n",
        ),
        judged(
            files("zone 0 clique 0 1\nzone 1 hall 2\ntrack 1 2\ncart 0 start 0 goal 0\ncart 1 start 2 goal 1\nplan\nstep cart 1 from 2 to 1 follow 1 1\n"),
            "refused 39 0\nstep 0: cart 1 can't enter clique 0 at point 1: its follow list names cart 1 twice\n",
        ),
        judged(
            files("zone 0 clique 0 1\nzone 1 hall 2\ntrack 1 2\ncart 0 start 0 goal 0\ncart 1 start 2 goal 1\nplan\nstep cart 1 from 2 to 1 follow 255 1\n"),
            "refused 39 0\nstep 0: cart 1 can't enter clique 0 at point 1: its follow list names cart 255, but the carts to be in it are 0 and 1\n",
        ),
    ]
}

/// The moves, the goals and the answers.
fn later_cases() -> Vec<Case> {
    let treadmill: Vec<String> = (0..1955)
        .map(|_| "step cart 0 from 9 to 12\nstep cart 0 from 12 to 0\n".to_string())
        .collect();
    let long = "zone 0 hall 0 1 2 3 4 5 6 7 8 9 10 11\nzone 1 hall 12\ntrack 0 12\ntrack 9 12\ncart 0 start 0 goal 0\nplan\n";
    let ferry: Vec<String> = (0..4032)
        .map(|_| "move cart 0 from 0 to 1\nmove cart 0 from 1 to 0\n".to_string())
        .collect();
    let short = "zone 0 hall 0\nzone 1 hall 1\ntrack 0 1\ncart 0 start 0 goal 0\nmoves\n";
    vec![
        drawn(
            with_payload(MOVE_LIST, |payload| payload.truncate(1)),
            "refused 45 0\nMOVES ends in its move count\n",
        ),
        drawn(
            with_payload(MOVE_LIST, |payload| payload.truncate(10)),
            "refused 45 2\nmove 2: MOVES ends in it: it has 2 of three bytes\n",
        ),
        drawn(
            with_payload(MOVE_LIST, |payload| payload.push(0)),
            "refused 45 4\nMOVES goes on after its four moves: one byte too many\n",
        ),
        drawn(
            with_moves("move cart 3 from 1 to 0\n"),
            "refused 46 0\nmove 0: there is no cart 3: the placing has carts 0 to 2\n",
        ),
        drawn(
            with_moves("move cart 0 from 1 to 0\nmove cart 0 from 12 to 0\n"),
            "refused 46 1\nmove 1: there is no point 12: the map has points 0 to 11\n",
        ),
        drawn(
            with_moves("move cart 0 from 1 to 2\n"),
            "refused 47 0\nmove 0: there is no track between points 1 and 2\n",
        ),
        drawn(
            with_moves("move cart 0 from 0 to 2\n"),
            "refused 48 0\nmove 0: cart 0 isn't on point 0: it is on point 1\n",
        ),
        drawn(
            files("zone 0 hall 0 1\ncart 0 start 0 goal 1\ncart 1 start 1 goal 0\nmoves\nmove cart 0 from 0 to 1\n"),
            "refused 48 0\nmove 0: cart 0 can't go to point 1: cart 1 is on it\n",
        ),
        judged(
            with_plan(""),
            "refused 50 0\nthe goals in stack 0 can't be reached after the last step: cart 0 is there, but cart 0 has its goal in hall 1\n",
        ),
        judged(
            with_line("cart 1 start 5 goal 6", "cart 1 start 5 goal 10"),
            "refused 50 2\nthe goals in clique 2 can't be reached after the last step: cart 1 is there, but cart 1 has its goal in ring 3\n",
        ),
        judged(
            files("zone 0 hall 0 1\nzone 1 hall 2\ncart 0 start 2 goal 0\nplan\n"),
            "refused 50 0\nthe goals in hall 0 can't be reached after the last step: cart 0 is to end there, but cart 0 is in hall 1\n",
        ),
        judged(
            files("zone 0 hall 0 1 2\ncart 0 start 0 goal 1\ncart 1 start 1 goal 0\nplan\n"),
            "refused 50 0\nthe goals in hall 0 can't be reached after the last step: its carts stand in the order 0 and 1, the goals ask for 1 and 0, and carts can't pass each other in it\n",
        ),
        judged(
            files("zone 0 clique 0 1\ncart 0 start 0 goal 1\ncart 1 start 1 goal 0\nplan\n"),
            "refused 50 0\nthe goals in clique 0 can't be reached after the last step: all its points are taken, so no cart in it can move: from its first point on they hold carts 0 and 1, the goals ask for 1 and 0\n",
        ),
        judged(
            files("zone 0 ring 0 1 2 3\ncart 0 start 0 goal 0\ncart 1 start 1 goal 2\ncart 2 start 2 goal 1\nplan\n"),
            "refused 50 0\nthe goals in ring 0 can't be reached after the last step: going forward its carts follow each other as 0, 1 and 2, the goals ask for 0, 2 and 1, and carts can't pass each other in it\n",
        ),
        drawn(
            with_line("move cart 1 from 5 to 6\n", ""),
            "refused 51 1\nthe list ends with cart 1 on point 5, but its goal is point 6\n",
        ),
        Case {
            service: Service::Resolve,
            room: Some(511),
            ..judged(good(), "refused 60 0\nthe move list takes 512 bytes (one block), but the buffer lent has 511 bytes\n")
        },
        Case {
            service: Service::Draw,
            room: Some(0),
            ..judged(good(), "refused 60 0\nthe plan takes 512 bytes (one block), but the buffer lent has no bytes\n")
        },
        Case {
            service: Service::Rounds,
            room: Some(1),
            ..judged(good(), "refused 60 0\nthe round sheet takes 512 bytes (one block), but the buffer lent has one byte\n")
        },
        Case {
            service: Service::Resolve,
            ..judged(
                files(&(long.to_string() + &treadmill.concat())),
                "refused 61 0\ncarrying the plan out takes more than 21503 moves, and a move list of them doesn't fit 128 blocks (64512 payload bytes), the most that such a file has\n",
            )
        },
        drawn(
            files(&(short.to_string() + &ferry.concat())),
            "refused 61 0\n8064 of the moves go between zones, and a plan with as many steps doesn't fit 64 blocks (32256 payload bytes), the most that such a file has\n",
        ),
    ]
}

#[test]
fn each_number_has_its_explanation() {
    let groups = [block_cases(), yard_cases(), plan_cases(), later_cases()];
    let mut made = BTreeSet::new();
    let mut wrong = Vec::new();
    for (index, case) in groups.into_iter().flatten().enumerate() {
        let folder = folder_of(&format!("refusal-{index}"), &case.files);
        let folder = folder.to_str().expect("a plain path");
        let room = case.room.map(|room| room.to_string());
        let mut words = vec![case.service.word(), folder, "--explain"];
        if let Some(room) = &room {
            words.extend(["--room", room]);
        }
        let printed = galz(&words);
        let expected = Printed {
            status: 1,
            out: case.printed.to_string(),
            err: String::new(),
        };
        if printed != expected {
            wrong.push(format!("expected {expected:?}\nprinted  {printed:?}"));
        }
        let number: Option<u32> = printed.out.split(' ').nth(1).and_then(|n| n.parse().ok());
        made.extend(number);
        let plain: Vec<&str> = words.into_iter().filter(|&w| w != "--explain").collect();
        let first = printed.out.lines().next().unwrap_or("").to_string() + "\n";
        assert_eq!(galz(&plain).out, first, "without --explain one line");
    }
    assert!(wrong.is_empty(), "{}", wrong.join("\n"));
    assert_eq!(made, BTreeSet::from(NUMBERS), "each number is made");
}

#[test]
fn each_number_has_words_of_its_own() {
    let unknown = general(0);
    for number in NUMBERS {
        assert_ne!(general(number), unknown, "{number}");
    }
}

/// On generated files, good and faulty, galz's own reading finds the number
/// and place that the proved library returns, so the words are about that
/// fault and never the table's general ones.
#[test]
fn words_are_about_the_library_s_fault() {
    let mut generator = cases::Generator::new(21);
    let mut explained = BTreeSet::new();
    for index in 0..12_000 {
        let case = generator.next_case();
        let (service, mut files) = (by_word(case.service.word()), Files::default());
        (files.map, files.placing) = (case.map, case.placing);
        if case.service.takes_plan() {
            files.plan = case.input;
        } else {
            files.moves = case.input;
        }
        let answer = service.call(&files, case.room.min(ROOM));
        let found = fault(service, &files).map(|fault| (fault.number, fault.place));
        match answer.number {
            0 | 60 | 61 => assert_eq!(found, None, "case {index}"),
            number => {
                assert_eq!(found, Some((number, answer.place)), "case {index}");
                let words = explain(service, &files, ROOM, number, answer.place);
                assert!(!words.contains("(place "), "case {index}: {words}");
                explained.insert(number);
            }
        }
    }
    let parts = NUMBERS.into_iter().filter(|&number| number < 60);
    let missing: Vec<u32> = parts.filter(|n| !explained.contains(n)).collect();
    assert!(missing.is_empty(), "not generated: {missing:?}");
}

fn by_word(word: &str) -> Service {
    let mut services = Service::ALL.into_iter();
    services.find(|service| service.word() == word).unwrap()
}
