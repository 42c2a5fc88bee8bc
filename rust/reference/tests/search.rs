//! Search over small maps: all kinds, zones of one to four points, up to six
//! points and three carts. Every answer is held against an oracle that only
//! searches over legal moves.
#![forbid(unsafe_code)]

mod help;
mod oracle;

use std::collections::BTreeMap;

use help::{refused, run};
use oracle::World;
use reference::Answer;
use writing::{file, Random, Walk, Yard, CLIQUE, PLAN, RING};

const MAPS: usize = 12_000;
const SEED: u64 = 20_080_101;
const ROOM: usize = 4096;

#[derive(Default)]
struct Tally {
    maps: usize,
    plans: usize,
    swept: usize,
    lists: usize,
    moves: usize,
    numbers: BTreeMap<u32, usize>,
    filled_cliques: usize,
    filled_rings: usize,
    ring_entries: usize,
    kinds: BTreeMap<u8, usize>,
}

/// A yard with its files and its oracle.
struct Trial<'a> {
    /// Whether to search for lists over whole states as well.
    by_state: bool,
    yard: &'a Yard,
    world: World,
    map: Vec<u8>,
    placing: Vec<u8>,
}

impl Trial<'_> {
    fn new(yard: &Yard, by_state: bool) -> Trial<'_> {
        Trial {
            by_state,
            yard,
            world: World::new(yard),
            map: yard.map(),
            placing: yard.placing(),
        }
    }

    /// Judges and resolves a plan and holds both against the oracle.
    fn check(&self, payload: &[u8], tally: &mut Tally) -> Answer {
        let plan = file(PLAN, payload);
        let answer = reference::judge(&self.map, &self.placing, &plan);
        let context = || format!("{:?} {payload:?}", self.yard);
        let (number, place) = self.world.judge(payload);
        assert_eq!(answer, refused(number, place), "{}", context());
        if self.by_state {
            let is_drawn = self.world.is_drawn_by_some_list(payload);
            assert_eq!(answer.number == 0, is_drawn, "{}", context());
        }
        let (resolved, buffer) = run(ROOM, |room| {
            reference::resolve(&self.map, &self.placing, &plan, room)
        });
        tally.plans += 1;
        *tally.numbers.entry(answer.number).or_default() += 1;
        if answer.number == 0 {
            assert_eq!(resolved.number, 0, "{}", context());
            self.check_list(payload, &buffer[..resolved.place as usize], tally);
        } else {
            assert_eq!(resolved, answer, "{}", context());
        }
        answer
    }

    /// Checks the move list of a cleared plan.
    fn check_list(&self, payload: &[u8], list: &[u8], tally: &mut Tally) {
        let context = || format!("{:?} {payload:?}", self.yard);
        let moves = writing::moves(list);
        assert_eq!(list, writing::move_list(&moves), "{}", context());
        let (drawn, reached) = self.world.replay(&moves).expect("a legal list");
        assert_eq!(drawn, payload, "{}", context());
        assert_eq!(reached, self.world.goals, "{}", context());

        let mut walk = Walk::new(self.yard);
        let steps: Vec<_> = moves.iter().filter_map(|&step| walk.make(step)).collect();
        let expected = oracle::transcript::moves(self.yard, &steps);
        assert_eq!(moves, expected, "{}", context());

        let plan = file(PLAN, payload);
        let (answer, buffer) = run(ROOM, |room| {
            reference::draw(&self.map, &self.placing, list, room)
        });
        assert_eq!(answer, refused(0, plan.len() as u32));
        assert_eq!(buffer[..plan.len()], plan);
        let (answer, buffer) = run(ROOM, |room| {
            reference::rounds(&self.map, &self.placing, list, room)
        });
        assert_eq!(answer.number, 0);
        let sheet = writing::sheet(&buffer[..answer.place as usize]);
        assert_eq!(sheet, oracle::rounds(&moves), "{}", context());

        tally.lists += 1;
        tally.moves += moves.len();
        let mut walk = Walk::new(self.yard);
        for &step in &moves {
            let Some(step) = walk.make(step) else {
                continue;
            };
            let (kind, listed) = &self.yard.zones[walk.zone_of(step.to)];
            let is_full = listed.iter().all(|&point| !walk.is_empty(point));
            tally.filled_cliques += usize::from(*kind == CLIQUE && is_full);
            tally.ring_entries += usize::from(*kind == RING);
            tally.filled_rings += usize::from(*kind == RING && is_full);
        }
    }
}

/// Walks at random until so many crossings; gives the payload of the plan
/// drawn, and makes the points reached the goals.
fn wander(random: &mut Random, yard: &mut Yard, crossings: usize) -> Vec<u8> {
    let mut walk = Walk::new(yard);
    let mut steps = Vec::new();
    for _ in 0..12 * crossings + random.below(12) {
        if steps.len() == crossings {
            break;
        }
        if let Some(next) = walk.find(random) {
            steps.extend(walk.make(next));
        }
    }
    for (cart, &point) in yard.carts.iter_mut().zip(walk.points()) {
        cart.1 = point;
    }
    writing::plan_payload(&steps)
}

/// Changes one thing in a payload.
fn change(random: &mut Random, yard: &Yard, payload: &[u8]) -> Vec<u8> {
    let mut changed = payload.to_vec();
    let index = random.below(changed.len());
    let small = random.below(usize::from(yard.points) + 1) as u8;
    match random.below(8) {
        0 => changed.truncate(index.max(1)),
        1 => changed.insert(index, small),
        2 => changed.push(small),
        3 => changed[1] = changed[1].wrapping_add(1),
        4 => changed[1] = changed[1].saturating_sub(1),
        5 => changed[index] = 255,
        _ => {
            let index = random.between(2.min(changed.len() - 1), changed.len() - 1);
            changed[index] = small;
        }
    }
    changed
}

/// A step over a random track, with random carts.
fn random_step(random: &mut Random, yard: &Yard) -> Vec<u8> {
    let carts = yard.carts.len();
    let (a, b) = *random.pick(&yard.edges);
    let (from, to) = if random.once_in(2) { (a, b) } else { (b, a) };
    let cart = random.below(carts) as u8;
    let behind = if random.once_in(2) {
        255
    } else {
        random.below(carts + 1) as u8
    };
    let mut bytes = vec![cart, from, to, behind];
    let mut zones = yard.zones.iter();
    let (kind, listed) = zones.find(|(_, listed)| listed.contains(&to)).unwrap();
    if *kind == CLIQUE && random.once_in(2) {
        let mut follow: Vec<u8> = (0..carts as u8).collect();
        random.shuffle(&mut follow);
        follow.resize(listed.len(), cart);
        bytes.extend_from_slice(&follow);
    }
    bytes
}

fn random_plan(random: &mut Random, yard: &Yard) -> Vec<u8> {
    let steps = random.between(0, 3);
    let mut payload = vec![0, steps as u8];
    for _ in 0..steps {
        if !yard.edges.is_empty() && !yard.carts.is_empty() {
            payload.extend(random_step(random, yard));
        } else {
            payload.extend([0; 4]);
        }
    }
    payload
}

/// Every step that could be written for a yard: all carts and tracks between
/// zones both ways, each cart or none behind, with no follow list or, into a
/// clique, with each list of the right length.
fn all_steps(yard: &Yard) -> Vec<Vec<u8>> {
    let carts = yard.carts.len() as u8;
    let mut steps = Vec::new();
    let tracks = yard.edges.iter().flat_map(|&(a, b)| [(a, b), (b, a)]);
    for (from, to) in tracks {
        let mut zones = yard.zones.iter();
        let (kind, listed) = zones.find(|(_, listed)| listed.contains(&to)).unwrap();
        if listed.contains(&from) {
            continue;
        }
        let mut lists = vec![Vec::new()];
        if *kind == CLIQUE {
            let mut longer = vec![Vec::new()];
            for _ in listed {
                longer = longer
                    .into_iter()
                    .flat_map(|list: Vec<u8>| {
                        (0..carts).map(move |cart| [&list[..], &[cart]].concat())
                    })
                    .collect();
            }
            lists.extend(longer);
        }
        for cart in 0..carts {
            for behind in (0..carts).chain([255]) {
                for list in &lists {
                    steps.push([&[cart, from, to, behind], &list[..]].concat());
                }
            }
        }
    }
    steps
}

/// Plans from walks, each with changes and with other goals, and random ones.
fn try_walks(random: &mut Random, yard: &mut Yard, by_state: bool, tally: &mut Tally) {
    let crossings = random.below(7);
    let payload = wander(random, yard, crossings);
    let trial = Trial::new(yard, by_state);
    let answer = trial.check(&payload, tally);
    assert_eq!(answer.number, 0, "a drawn plan is cleared");
    for _ in 0..10 {
        trial.check(&change(random, yard, &payload), tally);
    }
    for _ in 0..4 {
        trial.check(&random_plan(random, yard), tally);
    }
    let mut other = yard.clone();
    let mut goals: Vec<u8> = other.carts.iter().map(|&(_, goal)| goal).collect();
    random.shuffle(&mut goals);
    for (cart, goal) in other.carts.iter_mut().zip(goals) {
        cart.1 = goal;
    }
    Trial::new(&other, by_state).check(&payload, tally);
}

/// All plans of one step, and of two where they are few.
fn sweep(yard: &Yard, tally: &mut Tally) {
    let trial = Trial::new(yard, true);
    let steps = all_steps(yard);
    if steps.len() > 200 {
        return;
    }
    tally.swept += 1;
    trial.check(&[0, 0], tally);
    for first in &steps {
        trial.check(&[&[0, 1], &first[..]].concat(), tally);
        if steps.len() <= 40 {
            for second in &steps {
                trial.check(&[&[0, 2], &first[..], second].concat(), tally);
            }
        }
    }
}

/// A random yard with up to so many points and carts.
fn random_yard(random: &mut Random, points: usize, most: usize, carts: usize) -> Yard {
    let points = random.between(1, points).max(random.between(1, points));
    let mut yard = Yard::random(random, points, most);
    yard.join_at_random(random, points);
    let carts = random.between(0, carts.min(points));
    yard.place_at_random(random, carts);
    yard
}

impl Tally {
    fn add(&mut self, yard: &Yard) {
        self.maps += 1;
        for (kind, _) in &yard.zones {
            *self.kinds.entry(*kind).or_default() += 1;
        }
    }

    fn number(&self, number: u32) -> usize {
        self.numbers.get(&number).copied().unwrap_or(0)
    }

    fn print(&self) {
        println!(
            "maps {} (zones by kind {:?}), swept by all plans of one step {}",
            self.maps, self.kinds, self.swept
        );
        println!("plans {}, by number {:?}", self.plans, self.numbers);
        println!(
            "lists {} with {} moves, filled cliques {}, ring entries {}, filled rings {}",
            self.lists, self.moves, self.filled_cliques, self.ring_entries, self.filled_rings
        );
    }
}

#[test]
fn every_answer_on_small_maps_is_the_one_found_by_search() {
    let mut random = Random::new(SEED);
    let mut tally = Tally::default();
    for _ in 0..MAPS {
        let mut yard = random_yard(&mut random, 6, 4, 3);
        tally.add(&yard);
        for _ in 0..4 {
            try_walks(&mut random, &mut yard, true, &mut tally);
        }
        let crossings = random.between(0, 2);
        wander(&mut random, &mut yard, crossings);
        sweep(&yard, &mut tally);
    }
    tally.print();
    assert!(tally.maps >= 10_000 && tally.swept >= 8000);
    assert!(tally.plans >= 1_500_000);
    assert!(tally.kinds.len() == 4 && tally.kinds.values().all(|&zones| zones >= 3000));
    assert!(tally.number(0) >= 150_000);
    for expected in [35, 36, 37, 38, 39, 50] {
        assert!(tally.number(expected) >= 20_000, "{expected}");
    }
    assert!(tally.filled_cliques >= 15_000);
    assert!(tally.ring_entries >= 15_000 && tally.filled_rings >= 500);
}

/// Zones of up to six points and up to five carts, without the search over
/// whole states.
#[test]
fn answers_on_larger_zones_are_those_of_searched_configurations() {
    let mut random = Random::new(SEED + 1);
    let mut tally = Tally::default();
    for _ in 0..3000 {
        let mut yard = random_yard(&mut random, 9, 6, 5);
        tally.add(&yard);
        for _ in 0..4 {
            try_walks(&mut random, &mut yard, false, &mut tally);
        }
    }
    tally.print();
    assert!(tally.plans >= 150_000 && tally.number(0) >= 12_000);
    for expected in [35, 36, 37, 38, 39, 50] {
        assert!(tally.number(expected) >= 2000, "{expected}");
    }
    assert!(tally.filled_cliques >= 1000);
    assert!(tally.ring_entries >= 3000 && tally.filled_rings >= 100);
}
