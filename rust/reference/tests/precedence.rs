//! Which of two faults is told.
#![forbid(unsafe_code)]

mod help;

use help::{judged, refused, run, ROOM};
use reference::{judge, Answer};
use writing::{file, mend, move_list, plan, Step, Yard, CLIQUE, HALL, MAP, PLAN, RING};

fn yard() -> Yard {
    Yard::new(&[(HALL, &[0, 1]), (CLIQUE, &[2, 3]), (RING, &[4, 5, 6])])
        .joined(&[(1, 2), (3, 4)])
        .with(&[(0, 1), (2, 2)])
}

fn draw(map: &[u8], placing: &[u8], list: &[u8]) -> Answer {
    let (drawn, _) = run(ROOM, |room| reference::draw(map, placing, list, room));
    let (sheet, _) = run(ROOM, |room| reference::rounds(map, placing, list, room));
    if drawn.number != 61 {
        assert_eq!(drawn.number, sheet.number);
    }
    drawn
}

#[test]
fn files_in_the_order_named() {
    let (map, placing, plan) = (yard().map(), yard().placing(), plan(&[]));
    let mut not_of_its_kind = yard();
    not_of_its_kind.edges.pop();
    let late_map_fault = not_of_its_kind.map();
    assert_eq!(judge(&late_map_fault, &[], &[]), refused(19, 2));
    assert_eq!(draw(&late_map_fault, &[], &[]), refused(19, 2));
    let late_placing_fault = file(2, &[2, 0, 1, 2, 2, 0]);
    assert_eq!(judge(&map, &late_placing_fault, &[]), refused(25, 5));
    assert_eq!(judge(&map, &placing, &[]), refused(31, 0));
    assert_eq!(draw(&map, &placing, &[]), refused(41, 0));
    assert_eq!(judge(&[], &late_placing_fault, &plan), refused(11, 0));
}

#[test]
fn blocks_in_order_before_any_field() {
    let payload = vec![0xee; 1200];
    let fresh = file(MAP, &payload);
    let answer = |map: &[u8]| judge(map, &[], &[]);
    assert_eq!(answer(&fresh), refused(16, 0));
    let mut third = fresh.clone();
    third[1500] ^= 1;
    assert_eq!(answer(&third), refused(12, 2), "before the fields");
    let mut second = third.clone();
    second[512] = 2;
    mend(&mut second, 1);
    assert_eq!(answer(&second), refused(13, 1), "block 1 before block 2");
    let mut first = second.clone();
    first[5] = 0;
    mend(&mut first, 0);
    assert_eq!(answer(&first), refused(14, 0), "block 0 before block 1");
    let mut within = first.clone();
    within[3] = 1;
    mend(&mut within, 0);
    assert_eq!(answer(&within), refused(13, 0), "bytes 0-3 before fill");
    within[4] = 9;
    assert_eq!(answer(&within), refused(12, 0), "checksum first of all");
    within.push(0);
    assert_eq!(answer(&within), refused(11, 0), "length before all");
}

#[test]
fn fields_of_a_map_in_reading_order() {
    let answer = |payload: &[u8]| judge(&file(MAP, payload), &[], &[]);
    assert_eq!(answer(&[0]), refused(16, 0), "a range before a later end");
    assert_eq!(answer(&[0, 0]), refused(16, 0));
    assert_eq!(answer(&[2, 1, 9, 0]), refused(16, 2));
    assert_eq!(answer(&[2, 1, 4, 2, 9]), refused(16, 3));
    assert_eq!(answer(&[2, 2, 2, 1, 5, 9]), refused(17, 4));
    assert_eq!(answer(&[2, 2, 2, 1, 0, 9]), refused(16, 5));
    assert_eq!(answer(&[2, 1, 2, 1, 0]), refused(17, 5), "before the count");
    assert_eq!(answer(&[2, 1, 2, 1, 0, 255, 255]), refused(17, 5));
    assert_eq!(answer(&[1, 1, 2, 1, 0, 255]), refused(15, 5));
    assert_eq!(answer(&[1, 1, 2, 1, 0, 255, 255]), refused(16, 5));
    assert_eq!(answer(&[2, 1, 2, 2, 0, 1, 0, 2, 9]), refused(15, 9), "in b");
    assert_eq!(answer(&[2, 1, 2, 2, 0, 1, 0, 2, 9, 9]), refused(18, 8));
    assert_eq!(answer(&[2, 1, 2, 2, 0, 1, 0, 2, 0, 1]), refused(15, 10));
    let surplus = [2, 1, 2, 2, 0, 1, 0, 0, 7];
    assert_eq!(answer(&surplus), refused(15, 8), "a surplus before 19");
    assert_eq!(answer(&surplus[..8]), refused(19, 0));
}

#[test]
fn fields_of_a_placing_in_reading_order() {
    let map = yard().map();
    let answer = |payload: &[u8]| judge(&map, &file(2, payload), &[]);
    assert_eq!(answer(&[8]), refused(26, 0));
    assert_eq!(answer(&[2, 9, 9, 9, 9]), refused(27, 1));
    assert_eq!(answer(&[2, 0, 9, 9]), refused(28, 2));
    assert_eq!(answer(&[2, 0, 0, 0, 0]), refused(27, 3));
    assert_eq!(answer(&[2, 0, 0, 1, 0, 5]), refused(28, 4));
    assert_eq!(answer(&[2, 0, 0, 1, 1, 5]), refused(25, 5));
}

#[test]
fn checks_of_a_step_in_order() {
    let answer = |bytes: &[u8]| {
        let mut payload = vec![0, 1];
        payload.extend_from_slice(bytes);
        judge(&yard().map(), &yard().placing(), &file(PLAN, &payload))
    };
    assert_eq!(answer(&[9, 9, 9]), refused(35, 0), "four bytes, 36");
    assert_eq!(answer(&[9, 0, 0, 9]), refused(36, 0), "36, 37");
    assert_eq!(answer(&[1, 0, 5, 9]), refused(37, 0), "37, 38");
    assert_eq!(answer(&[1, 1, 2, 9]), refused(38, 0), "38, follow list");
    assert_eq!(answer(&[0, 1, 2, 9]), refused(35, 0), "follow list, 39");
    assert_eq!(answer(&[0, 1, 2, 9, 1, 1]), refused(39, 0), "39, 50");
    let full = yard().with(&[(0, 0), (2, 2), (3, 3)]);
    let full = |bytes: &[u8]| judge(&full.map(), &full.placing(), &file(PLAN, bytes));
    assert_eq!(full(&[0, 1, 0, 1, 2, 255]), refused(39, 0), "full, list");
    assert_eq!(full(&[0, 1, 1, 1, 2, 255]), refused(38, 0), "38, full");
}

#[test]
fn each_step_is_finished_before_the_next_is_read() {
    let answer = |payload: &[u8]| judge(&yard().map(), &yard().placing(), &file(PLAN, payload));
    assert_eq!(answer(&[0, 2, 9, 0, 0, 0]), refused(36, 0));
    assert_eq!(answer(&[0, 2, 0, 1, 2, 9, 1, 0, 7]), refused(39, 0));
    assert_eq!(answer(&[0, 2, 0, 1, 2, 255, 0, 1, 7]), refused(35, 1));
    assert_eq!(answer(&[0, 1, 0, 1, 2, 255, 0, 1, 7]), refused(35, 1));
    assert_eq!(answer(&[0, 1, 0, 1, 2, 255, 0, 1]), refused(50, 0));
}

#[test]
fn checks_of_a_move_in_order() {
    let answer = |bytes: &[u8]| {
        let mut payload = vec![0, 1];
        payload.extend_from_slice(bytes);
        draw(&yard().map(), &yard().placing(), &file(4, &payload))
    };
    assert_eq!(answer(&[9, 9]), refused(45, 0), "three bytes, 46");
    assert_eq!(answer(&[9, 0, 0]), refused(46, 0), "46, 47");
    assert_eq!(answer(&[1, 0, 5]), refused(47, 0), "47, 48");
    assert_eq!(answer(&[1, 0, 1]), refused(48, 0));
    assert_eq!(answer(&[0, 0, 1, 0]), refused(45, 1), "a surplus, then 51");
    assert_eq!(answer(&[1, 2, 3]), refused(51, 0));
    assert_eq!(answer(&[0, 0, 1]), refused(0, 512));
}

#[test]
fn a_surplus_before_50() {
    let mut yard = yard();
    yard.carts[0].1 = 5;
    let plan = file(PLAN, &[0, 0, 0]);
    assert_eq!(judge(&yard.map(), &yard.placing(), &plan), refused(35, 0));
    assert_eq!(judged(&yard, &[]), refused(50, 0));
}

/// A list too long for its blocks, in a buffer too short, off the goals.
#[test]
fn goals_before_61_before_60() {
    let listed: Vec<u8> = (0..60).collect();
    let zones: [(u8, &[u8]); 2] = [(HALL, &listed), (HALL, &[60])];
    let yard = Yard::new(&zones).joined(&[(0, 60), (59, 60)]);
    let pair = [Step::new(0, 59, 60, 255), Step::new(0, 60, 0, 255)];
    let steps: Vec<Step> = std::iter::repeat_n(pair, 400).flatten().collect();
    for (goal, number) in [(60, 50), (0, 61)] {
        let yard = yard.clone().with(&[(0, goal)]);
        let (map, placing, plan) = (yard.map(), yard.placing(), plan(&steps));
        for room in [0, 512, ROOM, ROOM + 1] {
            let (answer, _) = run(room, |room| reference::resolve(&map, &placing, &plan, room));
            assert_eq!(answer, refused(number, 0));
        }
    }
    let yard = Yard::new(&[(HALL, &[0]), (HALL, &[1])]).joined(&[(0, 1)]);
    let moves: Vec<[u8; 3]> = (0..9000u16)
        .map(|index| [0, (index % 2) as u8, (index % 2) as u8 ^ 1])
        .collect();
    let list = move_list(&moves);
    for (goal, number) in [(1, 51), (0, 61)] {
        let yard = yard.clone().with(&[(0, goal)]);
        let (map, placing) = (yard.map(), yard.placing());
        for room in [0, 512, ROOM] {
            let (answer, _) = run(room, |room| reference::draw(&map, &placing, &list, room));
            assert_eq!(answer, refused(number, 0));
        }
    }
    let yard = yard.with(&[(0, 1)]);
    let (answer, _) = run(0, |room| {
        reference::rounds(&yard.map(), &yard.placing(), &list, room)
    });
    assert_eq!(answer, refused(51, 0), "51 before 60");
    let (answer, _) = run(0, |room| {
        reference::resolve(&yard.map(), &yard.placing(), &plan(&[]), room)
    });
    assert_eq!(answer, refused(50, 0), "50 before 60");
}
