//! The yards that are timed, and their plans and move lists.

use writing::{Random, Step, Walk, Yard, CLIQUE, HALL, RING, STACK};

/// Most payload bytes of a plan.
const MOST_PLAN: usize = 64 * 504;
/// No cart behind.
const NOBODY: u8 = 255;

/// Two halls, a ring and a clique with tracks between them, 60 carts.
pub fn four_kinds() -> Yard {
    let points: Vec<u8> = (0..128).collect();
    let mut yard = Yard::new(&[
        (HALL, &points[..40]),
        (RING, &points[40..80]),
        (CLIQUE, &points[80..104]),
        (HALL, &points[104..]),
    ]);
    yard.join_at_random(&mut Random::new(2), 60);
    yard.place_at_random(&mut Random::new(3), 60);
    yard
}

/// A yard with the goals that a random walk of so many moves reaches.
pub fn walked(yard: Yard, count: usize) -> (Yard, Vec<[u8; 3]>) {
    let mut random = Random::new(1);
    let mut walk = Walk::new(&yard);
    let mut moves = Vec::new();
    while moves.len() < count {
        if let Some(next) = walk.find(&mut random) {
            walk.make(next);
            moves.push(next);
        }
    }
    (ended(yard, &walk), moves)
}

/// A yard with goals where a walk ended.
fn ended(mut yard: Yard, walk: &Walk) -> Yard {
    for (cart, &point) in yard.carts.iter_mut().zip(walk.points()) {
        cart.1 = point;
    }
    yard
}

/// One cart to and fro between two points, as many steps as a plan can have.
pub fn ferry() -> (Yard, Vec<[u8; 3]>) {
    let yard = Yard::new(&[(HALL, &[0]), (HALL, &[1])]).joined(&[(0, 1)]);
    let there_and_back = [[0, 0, 1], [0, 1, 0]];
    let moves = there_and_back.into_iter().cycle().take(8063).collect();
    (yard.with(&[(0, 1)]), moves)
}

/// A zone of 127 points with 63 carts on the even ones, and cart 63 outside,
/// beside one point of the zone. Each goal is the start.
fn visited(kind: u8, door: u8) -> Yard {
    let points: Vec<u8> = (0..127).collect();
    let yard = Yard::new(&[(kind, &points), (HALL, &[127])]).joined(&[(door, 127)]);
    let carts: Vec<(u8, u8)> = (0..63)
        .map(|cart| (2 * cart, 2 * cart))
        .chain([(127, 127)])
        .collect();
    yard.with(&carts)
}

/// Cart 63 goes in and out so often, the named carts behind it in turn.
fn visits(steps: usize, door: u8, behind: &[u8]) -> Vec<Step> {
    let behind = behind.iter().cycle().take(steps / 2);
    behind
        .flat_map(|&behind| {
            let inward = Step::new(63, 127, door, behind);
            [inward, Step::new(63, door, 127, NOBODY)]
        })
        .collect()
}

/// A hall whose middle place is visited, cart 31 going from one side of it to
/// the other each time.
pub fn one_shifting(steps: usize) -> (Yard, Vec<Step>) {
    (visited(HALL, 63), visits(steps, 63, &[31, 30]))
}

/// The same, all carts going from one side to the other each time.
pub fn all_shifting(steps: usize) -> (Yard, Vec<Step>) {
    (visited(HALL, 63), visits(steps, 63, &[62, NOBODY]))
}

/// A ring that turns nearly all the way round each time: the cart named behind
/// is the one ahead of the last.
pub fn far_turning(steps: usize) -> (Yard, Vec<Step>) {
    let behind: Vec<u8> = (0..63).collect();
    (visited(RING, 0), visits(steps, 0, &behind))
}

/// A ring that turns by one cart each time.
pub fn near_turning(steps: usize) -> (Yard, Vec<Step>) {
    let behind: Vec<u8> = (0..63).rev().collect();
    (visited(RING, 0), visits(steps, 0, &behind))
}

/// A full clique of 64, left and filled again as often as a plan can say, half
/// of its carts in new places each time.
pub fn refilled() -> (Yard, Vec<Step>) {
    let points: Vec<u8> = (0..64).collect();
    let yard = Yard::new(&[(CLIQUE, &points), (HALL, &[64])]).joined(&[(0, 64)]);
    let mut inside = points;
    let mut steps = Vec::new();
    let times = (MOST_PLAN - 2) / (4 + 4 + 64);
    for _ in 0..times {
        inside[1..33].rotate_left(1);
        steps.push(Step::new(0, 0, 64, NOBODY));
        steps.push(Step::filling(0, 64, 0, NOBODY, &inside));
    }
    let mut carts: Vec<(u8, u8)> = (0..).zip(&inside).map(|(p, &c)| (c, p)).collect();
    carts.sort();
    (yard.with(&carts), steps)
}

/// 56 zones of two or three points, 14 of each kind, and 60 carts that cross
/// at random.
pub fn small_zones(count: usize) -> (Yard, Vec<Step>) {
    let mut random = Random::new(5);
    let points: Vec<u8> = (0..126).collect();
    let zones: Vec<(u8, &[u8])> = points
        .chunks(9)
        .flat_map(|nine| {
            [
                (STACK, &nine[..2]),
                (HALL, &nine[2..4]),
                (CLIQUE, &nine[4..6]),
                (RING, &nine[6..]),
            ]
        })
        .collect();
    let mut yard = Yard::new(&zones);
    yard.join_at_random(&mut random, 300);
    yard.place_at_random(&mut random, 60);
    let mut walk = Walk::new(&yard);
    let mut steps = Vec::new();
    while steps.len() < count {
        let crossing = walk.find_crossing(&mut random);
        steps.extend(crossing.and_then(|next| walk.make(next)));
    }
    (ended(yard, &walk), steps)
}

/// Halls of two points, so many edges, and a cart for every two points.
pub fn halls(points: u8, edges: usize) -> Yard {
    let points: Vec<u8> = (0..points).collect();
    let halls: Vec<(u8, &[u8])> = points.chunks(2).map(|two| (HALL, two)).collect();
    filled(Yard::new(&halls), edges)
}

/// A clique of 64 points, as many single points, and so many edges.
pub fn large_clique(edges: usize) -> Yard {
    let points: Vec<u8> = (0..128).collect();
    let mut zones = vec![(CLIQUE, &points[..64])];
    zones.extend(points[64..].chunks(1).map(|one| (HALL, one)).take(62));
    zones.push((HALL, &points[126..]));
    filled(Yard::new(&zones), edges)
}

/// A yard with tracks up to so many edges, and carts on half of its points.
fn filled(mut yard: Yard, edges: usize) -> Yard {
    let mut random = Random::new(4);
    while yard.edges.len() < edges {
        yard.join_at_random(&mut random, 1);
    }
    yard.place_at_random(&mut random, usize::from(yard.points / 2));
    yard
}
