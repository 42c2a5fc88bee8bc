//! Each row of the table of returned numbers, with its place.
#![forbid(unsafe_code)]

mod help;

use help::{cleared, judged, refused, run, ROOM};
use reference::Answer;
use writing::{
    file, mend, move_list, plan, Step, Yard, BLOCK, CLIQUE, HALL, MAP, MOVE_LIST, PLACING, PLAN,
    RING, STACK,
};

/// A yard with all four kinds.
fn yard() -> Yard {
    Yard::new(&[
        (STACK, &[0, 1]),
        (HALL, &[2, 3, 4]),
        (CLIQUE, &[5, 6, 7]),
        (RING, &[8, 9, 10, 11]),
    ])
    .joined(&[(0, 2), (4, 5), (7, 8), (3, 9)])
    .with(&[(1, 2), (5, 6), (8, 9)])
}

fn steps() -> Vec<Step> {
    vec![Step::new(0, 0, 2, 255)]
}

/// Makes moves that carry the yard's plan out.
fn moves() -> Vec<[u8; 3]> {
    vec![[0, 1, 0], [0, 0, 2], [1, 5, 6], [2, 8, 9]]
}

/// What the four services answer to three files, the third a plan and a move
/// list in turn.
fn judge(map: &[u8], placing: &[u8], plan: &[u8]) -> Answer {
    let judged = reference::judge(map, placing, plan);
    let (resolved, _) = run(ROOM, |room| reference::resolve(map, placing, plan, room));
    if judged.number != 0 || resolved.number != 0 {
        assert_eq!(judged, resolved);
    }
    judged
}

fn replay(map: &[u8], placing: &[u8], list: &[u8]) -> Answer {
    let (drawn, _) = run(ROOM, |room| reference::draw(map, placing, list, room));
    let (sheet, _) = run(ROOM, |room| reference::rounds(map, placing, list, room));
    if drawn.number != 0 || sheet.number != 0 {
        assert_eq!(drawn, sheet);
    }
    Answer {
        place: if drawn.number == 0 { 0 } else { drawn.place },
        ..drawn
    }
}

/// Tries one of the four files in place of the good one, in every service
/// that reads it.
fn with_file(kind: u8, changed: &[u8]) -> Answer {
    let (map, placing) = (yard().map(), yard().placing());
    let (plan, list) = (plan(&steps()), move_list(&moves()));
    match kind {
        MAP => {
            let answer = judge(changed, &placing, &plan);
            assert_eq!(answer, replay(changed, &placing, &list));
            answer
        }
        PLACING => {
            let answer = judge(&map, changed, &plan);
            assert_eq!(answer, replay(&map, changed, &list));
            answer
        }
        PLAN => judge(&map, &placing, changed),
        _ => replay(&map, &placing, changed),
    }
}

fn good_payload(kind: u8) -> Vec<u8> {
    match kind {
        MAP => yard().map_payload(),
        PLACING => yard().placing_payload(),
        PLAN => writing::plan_payload(&steps()),
        _ => writing::move_payload(&moves()),
    }
}

const KINDS: [(u8, usize); 4] = [(MAP, 9), (PLACING, 1), (PLAN, 64), (MOVE_LIST, 128)];

#[test]
fn the_good_files_are_good() {
    for (kind, _) in KINDS {
        assert_eq!(with_file(kind, &file(kind, &good_payload(kind))), cleared());
    }
}

#[test]
fn lengths() {
    for (kind, most) in KINDS {
        let number = u32::from(kind) * 10 + 1;
        let good = file(kind, &good_payload(kind));
        for length in [0, 1, 511, 513, 1023, most * BLOCK + 1, (most + 1) * BLOCK] {
            let mut changed = good.clone();
            changed.resize(length, 0);
            assert_eq!(with_file(kind, &changed), refused(number, 0));
        }
        let mut longest = good.clone();
        longest.resize(most * BLOCK, 0);
        let block = u32::from(most > 1);
        let answer = with_file(kind, &longest);
        if most > 1 {
            assert_eq!(answer, refused(number + 3, 0), "block 0 isn't full");
        } else {
            assert_eq!((answer, block), (cleared(), 0));
        }
    }
}

#[test]
fn checksums() {
    for (kind, _) in KINDS {
        let number = u32::from(kind) * 10 + 2;
        for byte in [0, 1, 2, 3, 4, 5, 6, 300, 509, 510, 511] {
            let mut changed = file(kind, &good_payload(kind));
            changed[byte] ^= 0x20;
            assert_eq!(with_file(kind, &changed), refused(number, 0));
        }
    }
    for (kind, _) in KINDS.into_iter().filter(|&(kind, _)| kind != PLACING) {
        let mut changed = file(kind, &[1; 505]);
        changed[1023] ^= 1;
        assert_eq!(
            with_file(kind, &changed),
            refused(u32::from(kind) * 10 + 2, 1)
        );
    }
}

/// A block whose words sum to FFFF has the checksum 0000.
#[test]
fn ffff_does_not_pass_for_0000() {
    let mut payload = good_payload(PLACING);
    payload.resize(20, 0);
    let mut changed = file(PLACING, &payload);
    let sum = u16::from_be_bytes([changed[510], changed[511]]);
    changed[24..26].copy_from_slice(&sum.to_be_bytes());
    changed[5] = 20;
    mend(&mut changed, 0);
    assert_eq!(changed[510..], [0, 0]);
    assert_eq!(with_file(PLACING, &changed), refused(25, 7));
    changed[510..].copy_from_slice(&[0xff, 0xff]);
    assert_eq!(with_file(PLACING, &changed), refused(22, 0));
}

#[test]
fn an_all_zero_block_needs_the_checksum_ffff() {
    for (kind, _) in KINDS {
        let number = u32::from(kind) * 10;
        let mut changed = [0; BLOCK];
        assert_eq!(with_file(kind, &changed), refused(number + 2, 0));
        changed[510..].copy_from_slice(&[0xff, 0xff]);
        assert_eq!(with_file(kind, &changed), refused(number + 3, 0));
    }
}

#[test]
fn heads() {
    for (kind, _) in KINDS {
        let number = u32::from(kind) * 10 + 3;
        for byte in 0..4 {
            for value in [1, 2, 3, 4, 5, 255] {
                let mut changed = file(kind, &good_payload(kind));
                if changed[byte] != value {
                    changed[byte] = value;
                    mend(&mut changed, 0);
                    assert_eq!(with_file(kind, &changed), refused(number, 0));
                }
            }
        }
    }
    for (kind, _) in KINDS.into_iter().filter(|&(kind, _)| kind != PLACING) {
        for (byte, value) in [(512, 0), (513, 1), (514, 1), (515, 0), (515, 2)] {
            let mut changed = file(kind, &[1; 505]);
            changed[byte] = value;
            mend(&mut changed, 1);
            assert_eq!(
                with_file(kind, &changed),
                refused(u32::from(kind) * 10 + 3, 1)
            );
        }
    }
}

#[test]
fn fills_and_padding() {
    for (kind, _) in KINDS {
        let number = u32::from(kind) * 10 + 4;
        let good = file(kind, &good_payload(kind));
        let shorter = (good[5] - 1).to_be_bytes();
        for fill in [[0, 0], [1, 249], [2, 0], [255, 255], [0, shorter[0]]] {
            let mut changed = good.clone();
            changed[4..6].copy_from_slice(&fill);
            mend(&mut changed, 0);
            let last_is_zero = good[5 + usize::from(good[5])] == 0;
            if fill[1] == shorter[0] && last_is_zero {
                continue;
            }
            assert_eq!(with_file(kind, &changed), refused(number, 0), "{fill:?}");
        }
        for byte in [6 + usize::from(good[5]), 509] {
            let mut changed = good.clone();
            changed[byte] = 1;
            mend(&mut changed, 0);
            assert_eq!(with_file(kind, &changed), refused(number, 0));
        }
    }
    for (kind, _) in KINDS.into_iter().filter(|&(kind, _)| kind != PLACING) {
        let number = u32::from(kind) * 10 + 4;
        let mut changed = file(kind, &[1; 505]);
        changed[519] = 1;
        mend(&mut changed, 1);
        assert_eq!(with_file(kind, &changed), refused(number, 1));
        let mut changed = file(kind, &[0; 505]);
        changed[4..6].copy_from_slice(&503u16.to_be_bytes());
        mend(&mut changed, 0);
        assert_eq!(with_file(kind, &changed), refused(number, 0));
    }
}

#[test]
fn a_map_that_ends_early_or_late() {
    let payload = good_payload(MAP);
    let count = 2 + 4 * 2 + 12;
    for length in 1..payload.len() {
        let place = if length == count + 1 { count } else { length };
        let answer = with_file(MAP, &file(MAP, &payload[..length]));
        assert_eq!(answer, refused(15, place as u32));
    }
    for surplus in 1..4 {
        let mut longer = payload.clone();
        longer.resize(payload.len() + surplus, 0);
        let answer = with_file(MAP, &file(MAP, &longer));
        assert_eq!(answer, refused(15, payload.len() as u32));
    }
}

#[test]
fn a_map_of_two_blocks_that_ends_early() {
    let zones: Vec<Vec<u8>> = (0..32).map(|point| vec![point]).collect();
    let zones: Vec<(u8, &[u8])> = zones.iter().map(|points| (HALL, &points[..])).collect();
    let mut yard = Yard::new(&zones);
    for a in 0..32 {
        for b in a + 1..32 {
            yard.join(a, b);
        }
    }
    let payload = yard.map_payload();
    assert_eq!(payload.len(), 1092);
    let placing = yard.placing();
    for length in 400..payload.len() {
        let answer = judge(&file(MAP, &payload[..length]), &placing, &plan(&[]));
        assert_eq!(answer, refused(15, length as u32));
    }
    assert_eq!(judge(&yard.map(), &placing, &plan(&[])), cleared());
}

/// The map's answer after one byte of its payload is changed.
fn map_with(offset: usize, value: u8) -> Answer {
    let mut payload = good_payload(MAP);
    payload[offset] = value;
    with_file(MAP, &file(MAP, &payload))
}

#[test]
fn ranges_in_a_map() {
    for (offset, values) in [
        (0, &[0, 129, 255][..]),
        (1, &[0, 65, 255]),
        (2, &[0, 5, 255]),
        (3, &[0]),
        (6, &[0, 5]),
        (7, &[0]),
        (11, &[5, 0]),
        (12, &[0]),
        (16, &[5, 0, 200]),
        (17, &[0, 1, 2]),
    ] {
        for &value in values {
            assert_eq!(map_with(offset, value), refused(16, offset as u32));
        }
    }
    // 2,049 edges and 65,280 and more.
    let count = 22;
    assert_eq!(map_with(count, 255), refused(16, count as u32));
    let mut payload = good_payload(MAP);
    payload[count..count + 2].copy_from_slice(&2049u16.to_be_bytes());
    assert_eq!(with_file(MAP, &file(MAP, &payload)), refused(16, 22));
}

#[test]
fn points_in_a_map() {
    assert_eq!(map_with(4, 12), refused(17, 4), "not below n");
    assert_eq!(map_with(4, 255), refused(17, 4));
    assert_eq!(map_with(5, 0), refused(17, 5), "twice in a zone");
    assert_eq!(map_with(8, 1), refused(17, 8), "twice in two zones");
    assert_eq!(map_with(21, 8), refused(17, 21));
    assert_eq!(map_with(0, 13), refused(17, 22), "in no zone");
    assert_eq!(map_with(0, 128), refused(17, 22));
    let payload = &good_payload(MAP)[..22];
    let answer = |payload: &[u8]| with_file(MAP, &file(MAP, payload));
    assert_eq!(answer(payload), refused(15, 22));
    let mut missing = payload.to_vec();
    missing[0] = 13;
    assert_eq!(answer(&missing), refused(17, 22), "before the edge count");
}

#[test]
fn a_size_above_the_points_is_17_or_15() {
    // Zone 3 says 200 points: the first byte of the edge count is a point
    // listed again.
    assert_eq!(map_with(17, 200), refused(17, 22));
    let payload = [3, 1, 2, 200, 0, 1, 2];
    assert_eq!(with_file(MAP, &file(MAP, &payload)), refused(15, 7));
}

#[test]
fn edges_of_a_map() {
    let answer = |edges: &[(u8, u8)]| {
        let mut changed = yard();
        changed.edges = edges.to_vec();
        with_file(MAP, &changed.map())
    };
    assert_eq!(answer(&[(0, 0)]), refused(18, 24));
    assert_eq!(answer(&[(1, 0)]), refused(18, 24));
    assert_eq!(answer(&[(0, 12)]), refused(18, 24));
    assert_eq!(answer(&[(0, 255)]), refused(18, 24));
    assert_eq!(answer(&[(254, 255)]), refused(18, 24));
    assert_eq!(answer(&[(0, 1), (0, 1)]), refused(18, 26));
    assert_eq!(answer(&[(0, 2), (0, 1)]), refused(18, 26));
    assert_eq!(answer(&[(0, 1), (1, 2), (0, 3)]), refused(18, 28));
    assert_eq!(answer(&[(0, 1), (1, 2), (1, 2)]), refused(18, 28));
}

#[test]
fn zones_not_of_their_kind() {
    let answer = |yard: Yard| judge(&yard.map(), &yard.placing(), &plan(&[]));
    let without = |mut yard: Yard, edge: (u8, u8)| {
        yard.edges.retain(|&other| other != edge);
        yard
    };
    let stack = Yard::new(&[(STACK, &[0, 1, 2]), (HALL, &[3])]);
    assert_eq!(answer(stack.clone().joined(&[(0, 3)])), cleared());
    assert_eq!(answer(stack.clone().joined(&[(1, 3)])), refused(19, 0));
    assert_eq!(answer(stack.clone().joined(&[(2, 3)])), refused(19, 0));
    assert_eq!(answer(stack.clone().joined(&[(0, 2)])), refused(19, 0));
    assert_eq!(answer(without(stack, (1, 2))), refused(19, 0));
    let hall = Yard::new(&[(HALL, &[3]), (HALL, &[1, 0, 2])]);
    let edges = [(0, 3), (1, 3), (2, 3)];
    assert_eq!(answer(hall.clone().joined(&edges)), cleared());
    assert_eq!(answer(hall.clone().joined(&[(1, 2)])), refused(19, 1));
    assert_eq!(answer(without(hall, (0, 1))), refused(19, 1));
    let clique = Yard::new(&[(CLIQUE, &[0, 1, 2, 3])]);
    assert_eq!(answer(clique.clone()), cleared());
    for edge in clique.edges.clone() {
        assert_eq!(answer(without(clique.clone(), edge)), refused(19, 0));
    }
    let ring = Yard::new(&[(RING, &[0, 1, 2, 3])]);
    assert_eq!(answer(ring.clone()), cleared());
    assert_eq!(answer(ring.clone().joined(&[(0, 2)])), refused(19, 0));
    for edge in ring.edges.clone() {
        assert_eq!(answer(without(ring.clone(), edge)), refused(19, 0));
    }
    let two = Yard::new(&[(HALL, &[0]), (RING, &[1, 2, 3, 4]), (STACK, &[5, 6])]);
    let two = two.joined(&[(1, 3), (0, 6)]);
    assert_eq!(answer(two), refused(19, 1), "the lowest");
}

#[test]
fn a_placing_that_ends_early_or_late() {
    let payload = good_payload(PLACING);
    for length in 1..payload.len() {
        let answer = with_file(PLACING, &file(PLACING, &payload[..length]));
        assert_eq!(answer, refused(25, length as u32));
    }
    for surplus in [1, 2, 497] {
        let mut longer = payload.clone();
        longer.resize(payload.len() + surplus, 0);
        assert_eq!(
            with_file(PLACING, &file(PLACING, &longer)),
            refused(25, payload.len() as u32)
        );
    }
}

#[test]
fn carts_starts_and_goals() {
    let answer = |offset: usize, value: u8| {
        let mut payload = good_payload(PLACING);
        payload[offset] = value;
        with_file(PLACING, &file(PLACING, &payload))
    };
    assert_eq!(answer(0, 13), refused(26, 0), "above n");
    assert_eq!(answer(0, 12), refused(25, 7));
    assert_eq!(answer(0, 65), refused(26, 0));
    assert_eq!(answer(0, 255), refused(26, 0));
    for cart in 0..3 {
        assert_eq!(answer(1 + 2 * cart, 12), refused(27, 1 + 2 * cart as u32));
        assert_eq!(answer(2 + 2 * cart, 255), refused(28, 2 + 2 * cart as u32));
    }
    assert_eq!(answer(3, 1), refused(27, 3), "start repeated");
    assert_eq!(answer(5, 5), refused(27, 5));
    assert_eq!(answer(4, 2), refused(28, 4), "goal repeated");
    assert_eq!(answer(6, 6), refused(28, 6));
}

#[test]
fn a_plan_that_ends_early_or_late() {
    let answer = |payload: &[u8]| with_file(PLAN, &file(PLAN, payload));
    assert_eq!(answer(&[0]), refused(35, 0), "in the count");
    assert_eq!(answer(&[9]), refused(35, 0));
    for length in 2..6 {
        assert_eq!(answer(&[0, 1, 0, 0, 2, 255][..length]), refused(35, 0));
        let second = [0, 2, 0, 0, 2, 255, 0, 2, 0, 255];
        assert_eq!(answer(&second[..length + 4]), refused(35, 1));
    }
    assert_eq!(answer(&[0, 1, 0, 0, 2, 255, 0]), refused(35, 1), "surplus");
    assert_eq!(answer(&[0, 0, 0]), refused(35, 0), "surplus");
    assert_eq!(answer(&[255, 255, 0, 0, 2, 255]), refused(35, 1));
}

#[test]
fn a_follow_list_that_ends_early() {
    let yard = Yard::new(&[(CLIQUE, &[0, 1, 2]), (HALL, &[3])])
        .joined(&[(1, 3)])
        .with(&[(0, 2), (2, 0), (3, 1)]);
    let answer = |payload: &[u8]| judge(&yard.map(), &yard.placing(), &file(PLAN, payload));
    let payload = [0, 1, 2, 3, 1, 255, 1, 2, 0];
    assert_eq!(answer(&payload), cleared());
    for length in 6..9 {
        assert_eq!(answer(&payload[..length]), refused(35, 0));
    }
    assert_eq!(answer(&[0, 1, 2, 3, 1, 255, 1, 2, 0, 0]), refused(35, 1));
}

#[test]
fn steps_out_of_range() {
    let answer = |cart, from, to, behind| judged(&yard(), &[Step::new(cart, from, to, behind)]);
    assert_eq!(answer(3, 0, 2, 255), refused(36, 0));
    assert_eq!(answer(255, 0, 2, 255), refused(36, 0));
    assert_eq!(answer(0, 12, 2, 255), refused(36, 0));
    assert_eq!(answer(0, 0, 12, 255), refused(36, 0));
    assert_eq!(answer(0, 255, 255, 255), refused(36, 0));
    assert_eq!(answer(0, 0, 3, 255), refused(37, 0), "no track");
    assert_eq!(answer(0, 0, 0, 255), refused(37, 0));
    assert_eq!(answer(0, 0, 1, 255), refused(37, 0), "the same zone");
    assert_eq!(answer(1, 0, 2, 255), refused(38, 0), "not in the zone");
    assert_eq!(answer(0, 0, 2, 0), refused(39, 0), "itself");
    assert_eq!(answer(0, 0, 2, 1), refused(39, 0), "in another zone");
    assert_eq!(answer(0, 0, 2, 200), refused(39, 0), "no cart");
    let mut second = steps();
    second.push(Step::new(9, 9, 9, 9));
    assert_eq!(judged(&yard(), &second), refused(36, 1));
}

#[test]
fn full_targets() {
    for kind in [STACK, HALL, CLIQUE] {
        let yard = Yard::new(&[(HALL, &[0]), (kind, &[1, 2])])
            .joined(&[(0, 1)])
            .with(&[(0, 0), (1, 1), (2, 2)]);
        for behind in [255, 1, 2] {
            assert_eq!(judged(&yard, &[Step::new(0, 0, 1, behind)]), refused(39, 0));
        }
    }
    let yard = Yard::new(&[(HALL, &[0]), (RING, &[1, 2, 3])])
        .joined(&[(0, 1)])
        .with(&[(0, 0), (1, 1), (2, 2), (3, 3)]);
    assert_eq!(judged(&yard, &[Step::new(0, 0, 1, 3)]), refused(39, 0));
}

#[test]
fn behind_in_each_kind() {
    // A hall of four with two carts; it can be entered at each place.
    let yard = Yard::new(&[(HALL, &[0]), (HALL, &[4, 3, 2, 1])])
        .joined(&[(0, 1), (0, 2), (0, 3), (0, 4)])
        .with(&[(0, 1), (4, 4), (2, 2)]);
    for (to, behinds) in [(4, &[255][..]), (3, &[255, 1]), (2, &[1, 2]), (1, &[2])] {
        for behind in [0, 1, 2, 3, 254, 255] {
            let answer = judged(&yard, &[Step::new(0, 0, to, behind)]);
            let is_met = behinds.contains(&behind);
            assert_eq!(answer.number == 39, !is_met, "{to} {behind}");
            assert_eq!(
                answer.number == 39,
                answer.number != 0 && answer.number != 50
            );
        }
    }
    let clique = Yard::new(&[(HALL, &[0]), (CLIQUE, &[1, 2, 3])])
        .joined(&[(0, 1)])
        .with(&[(0, 1), (1, 2)]);
    assert_eq!(judged(&clique, &[Step::new(0, 0, 1, 255)]), cleared());
    assert_eq!(judged(&clique, &[Step::new(0, 0, 1, 1)]), refused(39, 0));
}

#[test]
fn a_follow_list_must_be_the_new_arrangement() {
    let yard = Yard::new(&[(CLIQUE, &[2, 1, 0]), (HALL, &[3]), (HALL, &[4])])
        .joined(&[(1, 3)])
        .with(&[(0, 2), (2, 0), (3, 1), (4, 4)]);
    let answer = |behind, follow: &[u8]| judged(&yard, &[Step::filling(2, 3, 1, behind, follow)]);
    assert_eq!(answer(255, &[0, 2, 1]), cleared());
    assert_eq!(answer(255, &[1, 2, 0]), refused(50, 0));
    assert_eq!(answer(0, &[0, 2, 1]), refused(39, 0), "behind");
    for bad in [
        [2, 0, 1],
        [0, 1, 2],
        [0, 2, 0],
        [0, 2, 2],
        [0, 2, 3],
        [0, 2, 255],
        [0, 2, 64],
        [64, 2, 65],
        [1, 2, 1],
    ] {
        assert_eq!(answer(255, &bad), refused(39, 0), "{bad:?}");
    }
}

#[test]
fn a_clique_of_one_point_is_filled_by_any_entering_cart() {
    let yard = Yard::new(&[(CLIQUE, &[0]), (HALL, &[1])])
        .joined(&[(0, 1)])
        .with(&[(1, 0)]);
    assert_eq!(
        help::resolved(&yard, &[Step::filling(0, 1, 0, 255, &[0])]),
        [[0, 1, 0]]
    );
    assert_eq!(judged(&yard, &[Step::new(0, 1, 0, 255)]), refused(35, 0));
    let wrong = Step::filling(0, 1, 0, 255, &[1]);
    assert_eq!(judged(&yard, &[wrong]), refused(39, 0));
}

#[test]
fn a_move_list_that_ends_early_or_late() {
    let answer = |payload: &[u8]| with_file(MOVE_LIST, &file(MOVE_LIST, payload));
    assert_eq!(answer(&[0]), refused(45, 0));
    let payload = good_payload(MOVE_LIST);
    for length in 2..payload.len() {
        assert_eq!(
            answer(&payload[..length]),
            refused(45, (length as u32 - 2) / 3)
        );
    }
    let mut longer = payload.clone();
    longer.push(0);
    assert_eq!(answer(&longer), refused(45, 4));
    assert_eq!(answer(&[0, 0, 0]), refused(45, 0));
}

#[test]
fn moves_that_are_not_legal() {
    let answer = |bad: [u8; 3]| {
        let mut moves = moves();
        moves[1] = bad;
        with_file(MOVE_LIST, &move_list(&moves))
    };
    assert_eq!(answer([3, 0, 2]), refused(46, 1));
    assert_eq!(answer([255, 0, 2]), refused(46, 1));
    assert_eq!(answer([0, 12, 2]), refused(46, 1));
    assert_eq!(answer([0, 0, 12]), refused(46, 1));
    assert_eq!(answer([0, 0, 3]), refused(47, 1));
    assert_eq!(answer([0, 0, 0]), refused(47, 1));
    assert_eq!(answer([1, 0, 2]), refused(48, 1), "another cart");
    assert_eq!(answer([0, 1, 0]), refused(48, 1), "not at from");
    let yard = Yard::new(&[(HALL, &[0, 1])]).with(&[(0, 0), (1, 1)]);
    let taken = move_list(&[[0, 0, 1]]);
    assert_eq!(replay(&yard.map(), &yard.placing(), &taken), refused(48, 0));
}

#[test]
fn goals_not_reached() {
    let mut yard = yard();
    yard.carts[1].1 = 10;
    yard.carts[2].1 = 5;
    assert_eq!(judged(&yard, &steps()), refused(50, 2), "the lowest zone");
    let list = move_list(&moves());
    assert_eq!(replay(&yard.map(), &yard.placing(), &list), refused(51, 1));
    yard.carts[0].1 = 3;
    assert_eq!(
        judged(&yard, &steps()),
        refused(50, 2),
        "3 is in the same hall"
    );
    assert_eq!(replay(&yard.map(), &yard.placing(), &list), refused(51, 0));
    assert_eq!(judged(&yard, &[]), refused(50, 0));
}

#[test]
fn goals_in_each_kind() {
    let answer = |kind: u8, carts: &[(u8, u8)]| {
        let yard = Yard::new(&[(kind, &[3, 1, 2, 0])]).with(carts);
        judged(&yard, &[])
    };
    for kind in [STACK, HALL] {
        assert_eq!(answer(kind, &[(3, 2), (1, 0)]), cleared());
        assert_eq!(answer(kind, &[(3, 0), (1, 2)]), refused(50, 0));
    }
    assert_eq!(answer(CLIQUE, &[(3, 0), (1, 2), (2, 1)]), cleared());
    let all = [(3, 3), (1, 1), (2, 2), (0, 0)];
    assert_eq!(answer(CLIQUE, &all), cleared());
    assert_eq!(answer(RING, &all), cleared());
    let turned = [(3, 1), (1, 2), (2, 0), (0, 3)];
    assert_eq!(answer(CLIQUE, &turned), refused(50, 0));
    assert_eq!(answer(RING, &turned), refused(50, 0));
    assert_eq!(answer(RING, &[(3, 2), (1, 0), (2, 1)]), cleared());
    assert_eq!(answer(RING, &[(3, 0), (1, 2), (2, 1)]), refused(50, 0));
    assert_eq!(answer(RING, &[(3, 0), (1, 3)]), cleared());
}

#[test]
fn a_buffer_one_byte_short_is_60() {
    let (map, placing) = (yard().map(), yard().placing());
    let (plan, list) = (plan(&steps()), move_list(&moves()));
    for room in [0, 1, 511] {
        let short = refused(60, 0);
        let answer = run(room, |room| reference::resolve(&map, &placing, &plan, room));
        assert_eq!(answer.0, short);
        let answer = run(room, |room| reference::draw(&map, &placing, &list, room));
        assert_eq!(answer.0, short);
        let answer = run(room, |room| reference::rounds(&map, &placing, &list, room));
        assert_eq!(answer.0, short);
    }
    for room in [512, 513, 1024] {
        let whole = refused(0, 512);
        let answer = run(room, |room| reference::resolve(&map, &placing, &plan, room));
        assert_eq!((answer.0, &answer.1[..512]), (whole, &list[..]));
        let answer = run(room, |room| reference::draw(&map, &placing, &list, room));
        assert_eq!((answer.0, &answer.1[..512]), (whole, &plan[..]));
        let answer = run(room, |room| reference::rounds(&map, &placing, &list, room));
        assert_eq!(answer.0, whole);
        assert_eq!(writing::sheet(&answer.1[..512]), [1, 2, 1, 1]);
    }
}
