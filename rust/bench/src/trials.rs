//! What is timed.

use reference::Answer;
use writing::{move_list, Step, Yard, CLIQUE, HALL, RING};

use crate::yards::{
    all_shifting, far_turning, ferry, four_kinds, halls, large_clique, near_turning, one_shifting,
    refilled, small_zones, walked,
};

/// Map, placing, plan or move list, and the buffer.
pub type Writing = fn(&[u8], &[u8], &[u8], &mut [u8]) -> Answer;

/// Most moves of a list.
const MOST_MOVES: usize = 21_503;
/// Most edges of a map.
const MOST_EDGES: usize = 2048;
/// Room for the longest answer.
const ROOM: usize = 65_536;

/// One service of both implementations, its files and room.
pub struct Trial {
    pub name: String,
    /// What the time is divided by to see whether it grows linearly.
    pub units: Option<usize>,
    pub proved: Writing,
    pub rust: Writing,
    pub map: Vec<u8>,
    pub placing: Vec<u8>,
    pub input: Vec<u8>,
    pub room: usize,
}

/// All trials.
pub fn trials() -> Vec<Trial> {
    let mut trials = walks();
    trials.extend(plans());
    trials.extend(endings());
    trials.extend(refusals());
    trials.extend(readings());
    trials.extend(growth());
    trials
}

/// Move lists, and the plans drawn from them.
fn walks() -> Vec<Trial> {
    let (walk_yard, walk) = walked(four_kinds(), MOST_MOVES);
    let (ferry_yard, ferry) = ferry();
    [
        ("21,503 moves, four kinds of zone", walk_yard, walk),
        ("8,063 moves, each a step", ferry_yard, ferry),
    ]
    .into_iter()
    .flat_map(|(name, yard, moves)| {
        let plan = drawn(&yard, &moves);
        [
            draw(format!("draw {name}"), &yard, &moves),
            rounds(format!("rounds of {name}"), &yard, &moves),
            judge(format!("judge the plan of {name}"), &yard, &plan),
            resolve(format!("resolve the plan of {name}"), &yard, &plan),
        ]
    })
    .collect()
}

/// Judging and resolving. Where all carts shift or a ring turns far, the move
/// list is too long.
fn plans() -> Vec<Trial> {
    [
        ("8,000 hall steps, a cart shifting", one_shifting(8000)),
        ("8,000 hall steps, all carts shifting", all_shifting(8000)),
        ("894 clique steps, follow lists", refilled()),
        ("8,000 ring steps, worst turning", far_turning(8000)),
        ("200 ring steps, turning by a cart", near_turning(200)),
        ("7,000 steps, 56 small zones", small_zones(7000)),
    ]
    .into_iter()
    .flat_map(|(name, plan)| both(name, plan))
    .collect()
}

/// Resolving a plan of no steps: a zone of 64 points is brought to its goals.
fn endings() -> Vec<Trial> {
    let ending = |name: &str, kind: u8, carts: u8, goal: fn(u8) -> u8| {
        let points: Vec<u8> = (0..64).collect();
        let carts: Vec<(u8, u8)> = (0..carts).map(|start| (start, goal(start))).collect();
        let yard = Yard::new(&[(kind, &points)]).with(&carts);
        let name = format!("resolve: a {name} of 64 to its goals");
        resolve(name, &yard, &writing::plan(&[]))
    };
    vec![
        ending("hall", HALL, 32, |start| start + 32),
        ending("clique", CLIQUE, 63, |start| (start + 1) % 63),
        ending("ring", RING, 32, |start| start + 32),
    ]
}

/// Refusing at the first block, and after the last step.
fn refusals() -> Vec<Trial> {
    let (yard, moves) = ferry();
    let early = |room: usize, name: &str| {
        let mut refused = rounds(name.to_string(), &yard, &moves);
        refused.map[511] ^= 1;
        Trial { room, ..refused }
    };
    let mut trials = vec![
        early(ROOM, "refuse block 0 of the map, buffer 65,536"),
        early(512, "refuse block 0 of the map, buffer 512"),
    ];
    let (mut yard, steps) = one_shifting(8000);
    (yard.carts[0].1, yard.carts[1].1) = (yard.carts[1].1, yard.carts[0].1);
    trials.extend(both("8,000 hall steps, refused late", (yard, steps)));
    trials
}

/// Reading the largest maps.
fn readings() -> Vec<Trial> {
    let readings = [
        ("read the largest map, 64 halls", halls(128, MOST_EDGES)),
        (
            "read the largest map, clique of 64",
            large_clique(MOST_EDGES),
        ),
    ]
    .map(|(name, yard)| read(name.to_string(), &yard));
    for reading in &readings {
        assert_eq!(reading.map.len(), 9 * 512);
    }
    readings.into()
}

/// Time against size: steps, moves and points.
fn growth() -> Vec<Trial> {
    let sized = |units, trial: Trial| Trial {
        name: format!("growth: {}", trial.name),
        units: Some(units),
        ..trial
    };
    let mut trials = Vec::new();
    for steps in [1000, 2000, 4000, 8000] {
        let judged_and_resolved = both(&format!("{steps} hall steps"), one_shifting(steps));
        trials.extend(judged_and_resolved.map(|trial| sized(steps, trial)));
    }
    for count in [2500, 5000, 10_000, 20_000] {
        let (yard, moves) = walked(four_kinds(), count);
        let drawn = draw(format!("draw {count} moves"), &yard, &moves);
        let rounds = rounds(format!("rounds of {count} moves"), &yard, &moves);
        trials.extend([drawn, rounds].map(|trial| sized(count, trial)));
    }
    for points in [16, 32, 64, 128] {
        let yard = halls(points, 7 * usize::from(points));
        let read = read(format!("read {points} points, 7 edges each"), &yard);
        trials.push(sized(usize::from(points), read));
    }
    trials
}

fn draw(name: String, yard: &Yard, moves: &[[u8; 3]]) -> Trial {
    Trial {
        name,
        units: None,
        proved: library::draw,
        rust: reference::draw,
        map: yard.map(),
        placing: yard.placing(),
        input: move_list(moves),
        room: ROOM,
    }
}

fn rounds(name: String, yard: &Yard, moves: &[[u8; 3]]) -> Trial {
    Trial {
        proved: library::rounds,
        rust: reference::rounds,
        ..draw(name, yard, moves)
    }
}

/// The rounds of no moves: the map is nearly all that is read.
fn read(name: String, yard: &Yard) -> Trial {
    Trial {
        room: 512,
        ..rounds(name, yard, &[])
    }
}

fn judge(name: String, yard: &Yard, plan: &[u8]) -> Trial {
    Trial {
        proved: |map, placing, plan, _| library::judge(map, placing, plan),
        rust: |map, placing, plan, _| reference::judge(map, placing, plan),
        input: plan.to_vec(),
        ..draw(name, yard, &[])
    }
}

fn resolve(name: String, yard: &Yard, plan: &[u8]) -> Trial {
    Trial {
        proved: library::resolve,
        rust: reference::resolve,
        input: plan.to_vec(),
        ..draw(name, yard, &[])
    }
}

/// Judging and resolving.
fn both(name: &str, (yard, steps): (Yard, Vec<Step>)) -> [Trial; 2] {
    let plan = writing::plan(&steps);
    [
        judge(format!("judge {name}"), &yard, &plan),
        resolve(format!("resolve {name}"), &yard, &plan),
    ]
}

/// The plan of a move list.
fn drawn(yard: &Yard, moves: &[[u8; 3]]) -> Vec<u8> {
    let trial = draw(String::new(), yard, moves);
    let mut buffer = vec![0; ROOM];
    let answer = reference::draw(&trial.map, &trial.placing, &trial.input, &mut buffer);
    buffer.truncate(answer.place as usize);
    buffer
}
