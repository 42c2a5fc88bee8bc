#![forbid(unsafe_code)]
//! How long the services take on a few fixed cases.

use std::hint::black_box;
use std::time::Instant;

use reference::Answer;
use writing::{move_list, plan, Random, Step, Walk, Yard, CLIQUE, HALL, RING};

/// A name, a yard, a plan and a move list with the same goals.
struct Trial {
    name: &'static str,
    yard: Yard,
    steps: Vec<Step>,
    moves: Vec<[u8; 3]>,
}

impl Trial {
    /// A random walk over a yard up to so many steps or as many moves as fit.
    fn walked(name: &'static str, mut yard: Yard, carts: usize, most: usize) -> Trial {
        let mut random = Random::new(1);
        yard.place_at_random(&mut random, carts);
        let mut walk = Walk::new(&yard);
        let (mut steps, mut moves) = (Vec::new(), Vec::new());
        let mut bytes = 2;
        while moves.len() < 21_503 && steps.len() < most && bytes < 32_000 {
            let Some(next) = walk.find(&mut random) else {
                continue;
            };
            moves.push(next);
            if let Some(step) = walk.make(next) {
                bytes += 4 + step.follow.len();
                steps.push(step);
            }
        }
        for (cart, &point) in yard.carts.iter_mut().zip(walk.points()) {
            cart.1 = point;
        }
        Trial {
            name,
            yard,
            steps,
            moves,
        }
    }
}

fn time(name: &str, service: &str, mut call: impl FnMut() -> Answer) {
    let answer = call();
    let mut best = u128::MAX;
    for _ in 0..200 {
        let start = Instant::now();
        black_box(call());
        best = best.min(start.elapsed().as_nanos());
    }
    let Answer { number, place } = answer;
    println!("{name:>14} {service:>8}: {best:>9} ns  ({number} {place})");
}

fn main() {
    let points: Vec<u8> = (0..128).collect();
    let four = Yard::new(&[
        (HALL, &points[..40]),
        (RING, &points[40..80]),
        (CLIQUE, &points[80..104]),
        (HALL, &points[104..128]),
    ]);
    let doors = |yard: Yard| {
        let mut yard = yard;
        yard.join_at_random(&mut Random::new(2), 300);
        yard
    };
    let ring = Yard::new(&[(RING, &points[..126]), (HALL, &points[126..127])]).joined(&[(0, 126)]);
    let single: Vec<(u8, &[u8])> = points[..64].chunks(1).map(|one| (HALL, one)).collect();
    let small = Yard::new(&[(HALL, &[0, 1]), (HALL, &[2, 3])]).joined(&[(0, 2), (1, 3)]);
    let mut trials = vec![
        Trial::walked("small", small, 1, 4),
        Trial::walked("four kinds", doors(four), 60, 8000),
        Trial::walked("single points", doors(Yard::new(&single)), 30, 8000),
    ];
    let mut turning = Trial::walked("turning ring", ring, 63, 0);
    turning.yard.carts = (0..63)
        .map(|cart| (cart, cart))
        .chain([(126, 126)])
        .collect();
    turning.steps = (0..4031u16)
        .flat_map(|index| {
            let behind = (index % 63) as u8;
            [Step::new(63, 126, 0, behind), Step::new(63, 0, 126, 255)]
        })
        .collect();
    trials.push(turning);

    let mut buffer = vec![0; 65_536];
    for Trial {
        name,
        yard,
        steps,
        moves,
    } in &trials
    {
        let (map, placing) = (yard.map(), yard.placing());
        let (plan, list) = (plan(steps), move_list(moves));
        println!("{name:>14}: {} steps, {} moves", steps.len(), moves.len());
        time(name, "judge", || reference::judge(&map, &placing, &plan));
        time(name, "resolve", || {
            reference::resolve(&map, &placing, &plan, &mut buffer)
        });
        time(name, "draw", || {
            reference::draw(&map, &placing, &list, &mut buffer)
        });
        time(name, "rounds", || {
            reference::rounds(&map, &placing, &list, &mut buffer)
        });
    }
}
