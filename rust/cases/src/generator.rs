//! Cases from a seed.

use writing::{
    file, move_payload, plan_payload, Random, MAP, MOVE_LIST, PLACING, PLAN, ROUND_SHEET,
};

use crate::changes::{
    change_file, change_moves, change_payload, change_steps, change_yard, lengthen,
};
use crate::scene::Scene;
use crate::{Case, Service};

/// Cases made of one scene before the next is set up.
const CASES_PER_SCENE: usize = 24;

/// Makes cases without end: good files, files with one or two faults, short,
/// long and extreme ones.
pub struct Generator {
    random: Random,
    services: Vec<Service>,
    is_small: bool,
    scene: Scene,
    left: usize,
}

impl Generator {
    /// Cases of all sizes.
    pub fn new(seed: u64) -> Generator {
        Generator::of(seed, &Service::ALL, false)
    }

    /// Cases of all sizes for some of the services.
    pub fn for_services(seed: u64, services: &[Service]) -> Generator {
        Generator::of(seed, services, false)
    }

    /// Cases whose files and buffers have few blocks.
    pub fn small(seed: u64) -> Generator {
        Generator::of(seed, &Service::ALL, true)
    }

    fn of(seed: u64, services: &[Service], is_small: bool) -> Generator {
        let mut random = Random::new(seed);
        let scene = Scene::small(&mut random);
        Generator {
            random,
            services: services.to_vec(),
            is_small,
            scene,
            left: 0,
        }
    }

    /// The next case.
    pub fn next_case(&mut self) -> Case {
        loop {
            let case = self.make();
            let longest = case.map.len().max(case.placing.len()).max(case.input.len());
            if !self.is_small || longest <= 4 * 512 {
                return case;
            }
        }
    }

    fn make(&mut self) -> Case {
        let random = &mut self.random;
        if self.left == 0 {
            self.left = CASES_PER_SCENE;
            self.scene = if self.is_small {
                Scene::small(random)
            } else {
                Scene::any(random)
            };
        }
        self.left -= 1;

        let service = *random.pick(&self.services);
        let mut yard = self.scene.yard.clone();
        let goals = if service.takes_plan() {
            &self.scene.plan_goals
        } else {
            &self.scene.list_goals
        };
        for (cart, &goal) in yard.carts.iter_mut().zip(goals) {
            cart.1 = goal;
        }
        let treatment = random.below(16);
        if treatment == 0 || treatment == 15 {
            change_yard(random, &mut yard);
        }
        let input = if service.takes_plan() {
            let mut steps = self.scene.steps.clone();
            if matches!(treatment, 1..=3 | 15) {
                change_steps(random, &yard, &mut steps);
            }
            plan_payload(&steps)
        } else {
            let mut moves = self.scene.moves.clone();
            if matches!(treatment, 1..=3 | 15) {
                change_moves(random, &yard, &mut moves);
            }
            move_payload(&moves)
        };

        let input_kind = if service.takes_plan() {
            PLAN
        } else {
            MOVE_LIST
        };
        let mut payloads = [
            (MAP, yard.map_payload()),
            (PLACING, yard.placing_payload()),
            (input_kind, input),
        ];
        if matches!(treatment, 4 | 5 | 14) {
            let index = random.below(3);
            change_payload(random, &mut payloads[index].1);
        }
        if treatment == 5 && !self.is_small && random.once_in(16) {
            let index = random.below(3);
            let blocks = match payloads[index].0 {
                MAP => 9,
                PLACING => 1,
                PLAN => 64,
                _ => 128,
            };
            lengthen(random, &mut payloads[index].1, blocks);
        }
        let mut files = payloads.map(|(kind, payload)| file(kind, &payload));
        if matches!(treatment, 6 | 7 | 14) {
            let index = random.below(3);
            change_file(random, &mut files[index]);
        }
        if treatment == 7 && random.once_in(3) {
            let index = random.below(3);
            change_file(random, &mut files[index]);
        }
        if treatment == 8 && random.once_in(8) {
            files.swap(random.below(3), random.below(3));
        }
        if treatment == 8 && random.once_in(20) {
            files[random.below(3)] = file(ROUND_SHEET, &[0, 0]);
        }
        let [map, placing, input] = files;
        let room = self.room(input.len());
        Case {
            service,
            map,
            placing,
            input,
            room,
        }
    }

    /// The length of a buffer.
    fn room(&mut self, input: usize) -> usize {
        let random = &mut self.random;
        let most = if self.is_small { 1024 } else { 65_536 };
        match random.below(12) {
            0 => 0,
            1 => input.min(most),
            2 => input.saturating_sub(1).min(most),
            3 => (random.between(1, 6) * 512 - random.below(2)).min(most),
            4 => random.below(2000).min(most),
            5 => most - random.below(2),
            6 => most + random.below(700),
            7 => 512,
            _ => most,
        }
    }
}
