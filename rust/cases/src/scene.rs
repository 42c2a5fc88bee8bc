//! Valid files to make cases of: a yard, a plan and a move list.

use writing::{Random, Step, Walk, Yard, CLIQUE, HALL, RING};

/// A yard with a plan and a move list, each with the goals it reaches.
#[derive(Clone)]
pub struct Scene {
    pub yard: Yard,
    pub steps: Vec<Step>,
    pub plan_goals: Vec<u8>,
    pub moves: Vec<[u8; 3]>,
    pub list_goals: Vec<u8>,
}

impl Scene {
    /// A scene of any size.
    pub fn any(random: &mut Random) -> Scene {
        match random.below(60) {
            0 => Scene::ferry(random),
            1 => Scene::turning_ring(random),
            2 => Scene::treadmill(random),
            3 => Scene::full_clique(random),
            4..=11 => Scene::of_size(random, 128, 64, 400),
            12..=13 => Scene::of_size(random, 128, 64, 8063),
            14..=25 => Scene::of_size(random, 40, 20, 120),
            _ => Scene::small(random),
        }
    }

    /// A scene whose files have few blocks.
    pub fn small(random: &mut Random) -> Scene {
        if random.once_in(60) {
            return Scene::turning_ring(random);
        }
        let (points, steps) = *random.pick(&[(4, 4), (6, 8), (10, 12), (14, 40)]);
        Scene::of_size(random, points, points, steps)
    }

    /// A random yard with up to so many points and carts, a plan and a move
    /// list with up to so many steps.
    fn of_size(random: &mut Random, points: usize, carts: usize, steps: usize) -> Scene {
        let points = if random.once_in(6) {
            points
        } else {
            random.between(1, points)
        };
        let most = *random.pick(&[1, 3, 4, 6, 12, 40, 128]);
        let mut yard = Yard::random(random, points, most);
        if random.once_in(3) {
            yard.join_at_random(random, 4 * points);
        }
        let most_carts = carts.min(points);
        let carts = match random.below(6) {
            0 => most_carts,
            1 => random.between(most_carts / 2, most_carts),
            _ => random.between(0, most_carts),
        };
        yard.place_at_random(random, carts);
        Scene::walked(random, yard, steps)
    }

    /// A plan and a move list of up to so many steps over a yard.
    fn walked(random: &mut Random, yard: Yard, most: usize) -> Scene {
        let count = if random.once_in(5) {
            most
        } else {
            random.between(0, most)
        };
        let mut stirred = Walk::new(&yard);
        let mut steps: Vec<Step> = Vec::new();
        let mut bytes = 2;
        while steps.len() < count {
            let Some(next) = stirred.find_crossing(random) else {
                break;
            };
            let step = stirred.make(next);
            bytes += 4 + step.as_ref().map_or(0, |step| step.follow.len());
            steps.extend(step);
            if bytes > 32_100 {
                break;
            }
        }
        stirred.stir_all(random);

        let mut walk = Walk::new(&yard);
        let mut moves = Vec::new();
        for _ in 0..(3 * count).min(21_503) {
            if let Some(next) = walk.find(random) {
                walk.make(next);
                moves.push(next);
            }
        }
        Scene {
            steps,
            plan_goals: stirred.points().to_vec(),
            moves,
            list_goals: walk.points().to_vec(),
            yard,
        }
    }

    /// One cart to and fro between two points, up to the limits of plans.
    fn ferry(random: &mut Random) -> Scene {
        let far = *random.pick(&[HALL, CLIQUE]);
        let mut yard = Yard::new(&[(HALL, &[0]), (far, &[1])]).joined(&[(0, 1)]);
        yard.carts = vec![(0, 0)];
        let limit = if far == HALL { 8063 } else { 7167 };
        let crossings = (limit - 2 + random.below(6)) as u16;
        let moves: Vec<[u8; 3]> = (0..crossings)
            .map(|index| [0, (index % 2) as u8, (index % 2) as u8 ^ 1])
            .collect();
        let goals = vec![(crossings % 2) as u8];
        let mut walk = Walk::new(&yard);
        Scene {
            steps: moves.iter().filter_map(|&next| walk.make(next)).collect(),
            plan_goals: goals.clone(),
            moves,
            list_goals: goals,
            yard,
        }
    }

    /// A ring that each entry asks to turn far: a short plan with thousands
    /// of moves.
    fn turning_ring(random: &mut Random) -> Scene {
        let points = random.between(60, 126);
        let listed: Vec<u8> = (0..points as u8).collect();
        let outside = points as u8;
        let mut yard = Yard::new(&[(RING, &listed), (HALL, &[outside])]);
        yard.join(random.below(points) as u8, outside);
        yard.join(random.below(points) as u8, outside);
        let carts = random.between(points / 3, points.min(64));
        yard.place_at_random(random, carts);
        let count = random.between(2, 40);
        Scene::walked(random, yard, count)
    }

    /// A hall whose one cart goes round by a point outside, for lists about
    /// as long as a list can be.
    fn treadmill(random: &mut Random) -> Scene {
        let listed: Vec<u8> = (0..12).collect();
        let mut yard = Yard::new(&[(HALL, &listed), (HALL, &[12])]).joined(&[(9, 12), (0, 12)]);
        yard.carts = vec![(0, 0)];
        let rounds = 1953 + random.below(3);
        let steps = [Step::new(0, 9, 12, 255), Step::new(0, 12, 0, 255)];
        let goal = random.below(12) as u8;
        // 21,503 moves are the most; a list that is walked here stays below.
        let up = (0..9).map(|point| [0, point, point + 1]);
        let round: Vec<[u8; 3]> = up.chain([[0, 9, 12], [0, 12, 0]]).collect();
        let moves = round.repeat(1954);
        Scene {
            yard,
            steps: std::iter::repeat_n(steps, rounds).flatten().collect(),
            plan_goals: vec![goal],
            moves,
            list_goals: vec![0],
        }
    }

    /// A large clique that is filled and left again and again.
    fn full_clique(random: &mut Random) -> Scene {
        let points = random.between(20, 63);
        let listed: Vec<u8> = (0..points as u8).collect();
        let outside = points as u8;
        let mut yard = Yard::new(&[(CLIQUE, &listed), (HALL, &[outside])]);
        for _ in 0..3 {
            yard.join(random.below(points) as u8, outside);
        }
        let carts = points - random.below(2);
        yard.place_at_random(random, carts);
        let count = random.between(2, 900);
        Scene::walked(random, yard, count)
    }
}
