//! Larger yards: the moves written are those that the rules' words give.
#![forbid(unsafe_code)]

mod help;
mod oracle;

use help::{refused, run, ROOM};
use oracle::transcript;
use writing::{Random, Walk, Yard};

#[test]
fn moves_on_large_yards_are_those_of_the_rules() {
    let mut random = Random::new(7);
    let (mut lists, mut steps_tried, mut over, mut moves_compared) = (0, 0, 0, 0);
    for _ in 0..400 {
        let points = random.between(2, 128);
        let most = random.between(1, 40);
        let mut yard = Yard::random(&mut random, points, most);
        let carts = random.between(1, points.min(64));
        yard.place_at_random(&mut random, carts);
        let mut walk = Walk::new(&yard);
        let mut steps = Vec::new();
        let most_steps = *random.pick(&[20, 150, 1500]);
        for _ in 0..random.below(8000) {
            if let Some(next) = walk.find(&mut random) {
                steps.extend(walk.make(next));
            }
            if steps.len() == most_steps {
                break;
            }
        }
        for (cart, &point) in yard.carts.iter_mut().zip(walk.points()) {
            cart.1 = point;
        }
        let (map, placing, plan) = (yard.map(), yard.placing(), writing::plan(&steps));
        assert_eq!(reference::judge(&map, &placing, &plan), refused(0, 0));
        let (answer, buffer) = run(ROOM, |room| reference::resolve(&map, &placing, &plan, room));
        let expected = transcript::moves(&yard, &steps);
        steps_tried += steps.len();
        if expected.len() > 21_503 {
            assert_eq!(answer, refused(61, 0));
            over += 1;
            continue;
        }
        let list = writing::move_list(&expected);
        assert_eq!(answer, refused(0, list.len() as u32));
        assert!(buffer[..list.len()] == list);
        lists += 1;
        moves_compared += expected.len();
        let (answer, drawn) = run(ROOM, |room| reference::draw(&map, &placing, &list, room));
        assert_eq!(answer, refused(0, plan.len() as u32));
        assert!(drawn[..plan.len()] == plan);
        let (answer, sheet) = run(ROOM, |room| reference::rounds(&map, &placing, &list, room));
        let sheet = writing::sheet(&sheet[..answer.place as usize]);
        let shown = expected.len().min(1500);
        assert_eq!(sheet[..shown], oracle::rounds(&expected[..shown]));
    }
    println!("lists {lists} with {moves_compared} moves, over {over}, steps {steps_tried}");
    assert!(lists >= 300 && steps_tried >= 10_000 && moves_compared >= 100_000);
}
