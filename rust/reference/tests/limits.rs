//! The limits of sizes, counts and answers.
#![forbid(unsafe_code)]

mod help;

use help::{cleared, judged, refused, run, ROOM};
use writing::{file, move_list, plan, Step, Yard, BLOCK, CLIQUE, HALL, MAP, PLAN, RING};

fn hall(points: usize) -> Yard {
    let listed: Vec<u8> = (0..points).map(|point| point as u8).collect();
    Yard::new(&[(HALL, &listed)])
}

#[test]
fn points_128_and_129() {
    assert_eq!(judged(&hall(128), &[]), cleared());
    assert_eq!(judged(&hall(129), &[]), refused(16, 0));
}

#[test]
fn zones_64_and_65() {
    let points: Vec<u8> = (0..65).collect();
    let zones: Vec<(u8, &[u8])> = points.chunks(1).map(|point| (HALL, point)).collect();
    assert_eq!(judged(&Yard::new(&zones[..64]), &[]), cleared());
    assert_eq!(judged(&Yard::new(&zones), &[]), refused(16, 1));
}

#[test]
fn carts_64_and_65() {
    let carts: Vec<(u8, u8)> = (0..65).map(|cart| (cart, cart + 1)).collect();
    let yard = hall(128).with(&carts[..64]);
    assert_eq!(help::resolved(&yard, &[]).len(), 64);
    assert_eq!(judged(&hall(128).with(&carts), &[]), refused(26, 0));
    let still: Vec<(u8, u8)> = (0..5).map(|cart| (cart, cart)).collect();
    assert_eq!(judged(&hall(4).with(&still[..4]), &[]), cleared());
    assert_eq!(judged(&hall(4).with(&still), &[]), refused(26, 0));
}

/// A clique of 64 points has 2,016 edges; one more point takes the rest.
#[test]
fn edges_2048_and_2049() {
    let listed: Vec<u8> = (0..64).collect();
    let mut yard = Yard::new(&[(CLIQUE, &listed), (HALL, &[64])]);
    for point in 0..32 {
        yard.join(point, 64);
    }
    assert_eq!(yard.edges.len(), 2048);
    let carts: Vec<(u8, u8)> = (0..64).map(|cart| (cart + 1, cart)).collect();
    let yard = yard.with(&carts);
    let follow: Vec<u8> = (0..64).collect();
    let step = Step::filling(63, 64, 31, 255, &follow);
    assert_eq!(judged(&yard, std::slice::from_ref(&step)), refused(39, 0));
    let mut follow: Vec<u8> = (0..64).collect();
    follow.swap(31, 63);
    let step = Step::filling(63, 64, 31, 255, &follow);
    assert_eq!(judged(&yard, std::slice::from_ref(&step)), refused(50, 0));
    let mut yard = yard;
    for (place, &cart) in follow.iter().enumerate() {
        yard.carts[usize::from(cart)].1 = place as u8;
    }
    // Carts 0 to 30 go one point down; cart 31 steps aside to point 31, carts
    // 32 to 62 go down, cart 31 goes to point 63; then the crossing.
    let moves = help::resolved(&yard, &[step]);
    assert_eq!(moves.len(), 31 + 1 + 31 + 1 + 1);
    assert_eq!(moves[31], [31, 32, 31]);
    assert_eq!(moves[63..], [[31, 31, 63], [63, 64, 31]]);
    yard.join(32, 64);
    assert_eq!(judged(&yard, &[]), refused(16, 2 + 66 + 3));
}

#[test]
fn the_longest_map_is_9_blocks() {
    // 128 points in 64 zones of two, and 2,048 edges.
    let points: Vec<u8> = (0..128).collect();
    let zones: Vec<(u8, &[u8])> = points.chunks(2).map(|pair| (HALL, pair)).collect();
    let mut yard = Yard::new(&zones);
    'all: for a in 0..128 {
        for b in a + 2..128 {
            if yard.edges.len() == 2048 {
                break 'all;
            }
            yard.join(a, b);
        }
    }
    assert_eq!(yard.map_payload().len(), 4356);
    assert_eq!(yard.map().len(), 9 * BLOCK);
    assert_eq!(judged(&yard, &[]), cleared());
    let mut payload = yard.map_payload();
    payload.resize(9 * 504, 0);
    let answer = reference::judge(&file(MAP, &payload), &yard.placing(), &plan(&[]));
    assert_eq!(answer, refused(15, 4356));
    payload.push(0);
    let answer = reference::judge(&file(MAP, &payload), &yard.placing(), &plan(&[]));
    assert_eq!(answer, refused(11, 0));
}

/// Two points, one cart, crossing to and fro.
fn ferry(crossings: usize) -> (Yard, Vec<Step>) {
    let yard = Yard::new(&[(HALL, &[0]), (HALL, &[1])])
        .joined(&[(0, 1)])
        .with(&[(0, (crossings % 2) as u8)]);
    let there = |index: usize| (index % 2) as u8;
    let step = |index| Step::new(0, there(index), there(index + 1), 255);
    (yard, (0..crossings).map(step).collect())
}

#[test]
fn plans_of_64_and_65_blocks() {
    let (yard, steps) = ferry(8063);
    assert_eq!(plan(&steps).len(), 64 * BLOCK);
    assert_eq!(help::resolved(&yard, &steps).len(), 8063);
    let (yard, steps) = ferry(8064);
    assert_eq!(plan(&steps).len(), 65 * BLOCK);
    assert_eq!(judged(&yard, &steps), refused(31, 0));
    // The most bytes: two surplus ones.
    let (yard, steps) = ferry(8063);
    let mut payload = writing::plan_payload(&steps);
    payload.extend_from_slice(&[0, 0]);
    let answer = reference::judge(&yard.map(), &yard.placing(), &file(PLAN, &payload));
    assert_eq!(answer, refused(35, 8063));
}

#[test]
fn drawing_8063_and_8064_steps() {
    for (crossings, number) in [(8063, 0), (8064, 61)] {
        let (yard, steps) = ferry(crossings);
        let moves: Vec<[u8; 3]> = steps
            .iter()
            .map(|step| [step.cart, step.from, step.to])
            .collect();
        let (map, placing, list) = (yard.map(), yard.placing(), move_list(&moves));
        let draw = |room| run(room, |room| reference::draw(&map, &placing, &list, room)).0;
        if number == 0 {
            assert_eq!(draw(64 * BLOCK), refused(0, 64 * 512));
            assert_eq!(draw(64 * BLOCK - 1), refused(60, 0));
        } else {
            assert_eq!(draw(ROOM), refused(61, 0));
            assert_eq!(draw(0), refused(61, 0), "61 before 60");
        }
    }
}

/// Crossings into a clique of one point take five bytes, back four.
#[test]
fn drawing_follow_lists_up_to_the_limit() {
    for (crossings, number) in [(7167, 0), (7168, 61)] {
        let yard = Yard::new(&[(HALL, &[0]), (CLIQUE, &[1])])
            .joined(&[(0, 1)])
            .with(&[(0, (crossings % 2) as u8)]);
        let moves: Vec<[u8; 3]> = (0..crossings)
            .map(|index| [0, (index % 2) as u8, ((index + 1) % 2) as u8])
            .collect();
        let (map, placing, list) = (yard.map(), yard.placing(), move_list(&moves));
        let (answer, drawn) = run(ROOM, |room| reference::draw(&map, &placing, &list, room));
        assert_eq!(answer.number, number);
        if number == 0 {
            let drawn = &drawn[..answer.place as usize];
            assert_eq!(writing::payload(drawn).len(), 32254);
            assert_eq!(reference::judge(&map, &placing, drawn), cleared());
        }
    }
}

/// A hall of twelve places and one point outside. A cart goes up nine places,
/// out and in again at the bottom: eleven moves for two steps.
fn treadmill(last: u8) -> (Yard, Vec<Step>) {
    let listed: Vec<u8> = (0..12).collect();
    let yard = Yard::new(&[(HALL, &listed), (HALL, &[12])])
        .joined(&[(9, 12), (0, 12)])
        .with(&[(0, last)]);
    let pair = [Step::new(0, 9, 12, 255), Step::new(0, 12, 0, 255)];
    (yard, std::iter::repeat_n(pair, 1954).flatten().collect())
}

#[test]
fn answers_of_128_blocks_and_one_move_more() {
    let (yard, steps) = treadmill(9);
    let moves = help::resolved(&yard, &steps);
    assert_eq!(moves.len(), 21_503);
    let (map, placing, plan) = (yard.map(), yard.placing(), plan(&steps));
    let resolve = |room| run(room, |room| reference::resolve(&map, &placing, &plan, room)).0;
    assert_eq!(resolve(ROOM), refused(0, 65_536));
    assert_eq!(resolve(ROOM + 700), refused(0, 65_536));
    assert_eq!(resolve(ROOM - 1), refused(60, 0));
    assert_eq!(resolve(0), refused(60, 0));

    let list = move_list(&moves);
    assert_eq!(list.len(), ROOM);
    let rounds = |room| run(room, |room| reference::rounds(&map, &placing, &list, room)).0;
    assert_eq!(rounds(86 * BLOCK), refused(0, 86 * 512));
    assert_eq!(rounds(86 * BLOCK - 1), refused(60, 0));

    let (yard, steps) = treadmill(10);
    let (map, placing, plan) = (yard.map(), yard.placing(), writing::plan(&steps));
    let resolve = |room| run(room, |room| reference::resolve(&map, &placing, &plan, room)).0;
    assert_eq!(resolve(ROOM + 700), refused(61, 0));
    assert_eq!(resolve(0), refused(61, 0), "61 before 60");
    assert_eq!(reference::judge(&map, &placing, &plan), cleared());
    assert_eq!(reference::listing(&map, &placing, &plan), "refused 61 0\n");
}

#[test]
fn a_list_one_move_too_long_is_over_129_blocks() {
    let moves = vec![[0, 0, 1]; 21_504];
    let list = move_list(&moves);
    assert_eq!(list.len(), 129 * BLOCK);
    let (yard, _) = ferry(0);
    let (answer, _) = run(ROOM, |room| {
        reference::draw(&yard.map(), &yard.placing(), &list, room)
    });
    assert_eq!(answer, refused(41, 0));
}

/// A ring of 126 points with 63 carts; each of 4,031 entries lets 62 carts go
/// by, about 7,800 moves.
#[test]
fn tens_of_millions_of_ring_moves_are_61_in_good_time() {
    let listed: Vec<u8> = (0..126).collect();
    let mut carts: Vec<(u8, u8)> = (0..63).map(|cart| (cart, cart)).collect();
    carts.push((126, 126));
    let yard = Yard::new(&[(RING, &listed), (HALL, &[126])])
        .joined(&[(0, 126)])
        .with(&carts);
    let pair = |index: usize| {
        let behind = (index % 63) as u8;
        [Step::new(63, 126, 0, behind), Step::new(63, 0, 126, 255)]
    };
    let steps: Vec<Step> = (0..4031).flat_map(pair).collect();
    let (map, placing, plan) = (yard.map(), yard.placing(), plan(&steps));
    assert_eq!(reference::judge(&map, &placing, &plan), cleared());
    let start = std::time::Instant::now();
    let (answer, _) = run(ROOM, |room| reference::resolve(&map, &placing, &plan, room));
    assert_eq!(answer, refused(61, 0));
    assert!(start.elapsed().as_secs() < 5);
    // A fault in the last step still comes first.
    let mut faulty = steps;
    faulty.last_mut().unwrap().behind = 7;
    let plan = writing::plan(&faulty);
    let (answer, _) = run(ROOM, |room| reference::resolve(&map, &placing, &plan, room));
    assert_eq!(answer, refused(39, 8061));
}
