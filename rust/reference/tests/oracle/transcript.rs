//! The section "Which moves are written", word by word and slowly.

use writing::{Step, Yard, CLIQUE, RING};

/// The moves of a plan that is cleared.
pub fn moves(yard: &Yard, steps: &[Step]) -> Vec<[u8; 3]> {
    let mut transcript = Transcript {
        yard,
        point_of: yard.carts.iter().map(|&(start, _)| start).collect(),
        moves: Vec::new(),
    };
    for step in steps {
        transcript.leave(step);
        transcript.enter(step);
        transcript.go(step.cart, step.to);
    }
    for zone in 0..yard.zones.len() {
        transcript.end(zone);
    }
    transcript.moves
}

struct Transcript<'a> {
    yard: &'a Yard,
    point_of: Vec<u8>,
    moves: Vec<[u8; 3]>,
}

impl Transcript<'_> {
    fn go(&mut self, cart: u8, to: u8) {
        let from = self.point_of[usize::from(cart)];
        assert!(self.cart_on(to).is_none(), "a move to a taken point");
        self.moves.push([cart, from, to]);
        self.point_of[usize::from(cart)] = to;
    }

    fn cart_on(&self, point: u8) -> Option<u8> {
        let on = |other: &u8| *other == point;
        self.point_of.iter().position(on).map(|cart| cart as u8)
    }

    fn at(&self, cart: u8) -> u8 {
        self.point_of[usize::from(cart)]
    }

    fn zone_with(&self, point: u8) -> (u8, Vec<u8>) {
        let mut zones = self.yard.zones.iter();
        zones
            .find(|(_, listed)| listed.contains(&point))
            .unwrap()
            .clone()
    }

    /// The carts on some points, in the order of the points.
    fn carts_on(&self, points: &[u8]) -> Vec<u8> {
        points.iter().filter_map(|&p| self.cart_on(p)).collect()
    }

    fn place(&self, listed: &[u8], cart: u8) -> i32 {
        place(listed, self.at(cart))
    }

    fn leave(&mut self, step: &Step) {
        let (kind, listed) = self.zone_with(step.from);
        match kind {
            CLIQUE => {
                if let Some(other) = self.cart_on(step.from) {
                    if other == step.cart {
                        return;
                    }
                    let empty = self.earliest_empty(&listed);
                    self.go(other, empty);
                }
                self.go(step.cart, step.from);
            }
            RING => {
                while self.at(step.cart) != step.from {
                    self.push(&listed, step.cart);
                }
            }
            _ => {
                let carts = self.carts_on(&listed);
                let index = carts.iter().position(|&cart| cart == step.cart).unwrap();
                let j = place(&listed, step.from);
                let mut targets = self.spread(&listed, &carts[..index], &carts[index + 1..], j);
                targets.push((step.cart, j));
                self.move_to_hall_places(&listed, &targets);
            }
        }
    }

    fn enter(&mut self, step: &Step) {
        let (kind, listed) = self.zone_with(step.to);
        match kind {
            CLIQUE if !step.follow.is_empty() => {
                let targets: Vec<(u8, u8)> = step
                    .follow
                    .iter()
                    .zip(&listed)
                    .filter(|(&cart, _)| cart != step.cart)
                    .map(|(&cart, &point)| (cart, point))
                    .collect();
                self.move_to_clique_arrangement(&listed, &targets);
            }
            CLIQUE => {
                if let Some(cart) = self.cart_on(step.to) {
                    let empty = self.earliest_empty(&listed);
                    self.go(cart, empty);
                }
            }
            RING => loop {
                if let Some(cart) = self.cart_on(step.to) {
                    self.push(&listed, cart);
                } else {
                    let behind = self.first_behind(&listed, step.to);
                    if behind.unwrap_or(255) == step.behind {
                        break;
                    }
                    self.push(&listed, behind.unwrap());
                }
            },
            _ => {
                let carts = self.carts_on(&listed);
                let named = carts.iter().position(|&cart| cart == step.behind);
                let (below, above) = carts.split_at(named.map_or(0, |index| index + 1));
                let targets = self.spread(&listed, below, above, place(&listed, step.to));
                self.move_to_hall_places(&listed, &targets);
            }
        }
    }

    fn end(&mut self, zone: usize) {
        let (kind, listed) = self.yard.zones[zone].clone();
        let mut inside = self.carts_on(&listed);
        inside.sort();
        let goal = |cart: u8| self.yard.carts[usize::from(cart)].1;
        match kind {
            CLIQUE => {
                let targets: Vec<(u8, u8)> =
                    inside.iter().map(|&cart| (cart, goal(cart))).collect();
                self.move_to_clique_arrangement(&listed, &targets);
            }
            RING => {
                let Some(&lowest) = inside.first() else {
                    return;
                };
                while self.at(lowest) != goal(lowest) {
                    self.push(&listed, lowest);
                }
                let start = place(&listed, goal(lowest)) as usize;
                let mut hall = listed[start + 1..].to_vec();
                hall.extend_from_slice(&listed[..start]);
                let targets: Vec<(u8, i32)> = inside[1..]
                    .iter()
                    .map(|&cart| (cart, place(&hall, goal(cart))))
                    .collect();
                self.move_to_hall_places(&hall, &targets);
            }
            _ => {
                let targets: Vec<(u8, i32)> = inside
                    .iter()
                    .map(|&cart| (cart, place(&listed, goal(cart))))
                    .collect();
                self.move_to_hall_places(&listed, &targets);
            }
        }
    }

    /// The t-th cart below j goes to the lesser of its place and j - t, the
    /// t-th above to the greater of its place and j + t.
    fn spread(&self, listed: &[u8], below: &[u8], above: &[u8], j: i32) -> Vec<(u8, i32)> {
        let mut targets = Vec::new();
        for (t, &cart) in (1..).zip(below.iter().rev()) {
            targets.push((cart, self.place(listed, cart).min(j - t)));
        }
        for (t, &cart) in (1..).zip(above) {
            targets.push((cart, self.place(listed, cart).max(j + t)));
        }
        targets
    }

    fn move_to_hall_places(&mut self, listed: &[u8], targets: &[(u8, i32)]) {
        let mut targets: Vec<(i32, u8, i32)> = targets
            .iter()
            .map(|&(cart, target)| (self.place(listed, cart), cart, target))
            .collect();
        targets.sort();
        for &(place, cart, target) in &targets {
            for next in (target..place).rev() {
                self.go(cart, listed[next as usize]);
            }
        }
        for &(place, cart, target) in targets.iter().rev() {
            for next in place + 1..=target {
                self.go(cart, listed[next as usize]);
            }
        }
    }

    fn move_to_clique_arrangement(&mut self, listed: &[u8], targets: &[(u8, u8)]) {
        loop {
            let off: Vec<(u8, u8)> = targets
                .iter()
                .copied()
                .filter(|&(cart, target)| self.at(cart) != target)
                .collect();
            let Some(&(lowest, _)) = off.iter().min() else {
                return;
            };
            let open = off
                .iter()
                .filter(|&&(_, target)| self.cart_on(target).is_none())
                .min_by_key(|&&(_, target)| place(listed, target));
            match open {
                Some(&(cart, target)) => self.go(cart, target),
                None => {
                    let empty = self.earliest_empty(listed);
                    self.go(lowest, empty);
                }
            }
        }
    }

    fn earliest_empty(&self, listed: &[u8]) -> u8 {
        let mut points = listed.iter().copied();
        points.find(|&p| self.cart_on(p).is_none()).unwrap()
    }

    fn push(&mut self, listed: &[u8], cart: u8) {
        let mut run = Vec::new();
        let mut at = place(listed, self.at(cart)) as usize;
        while let Some(cart) = self.cart_on(listed[at]) {
            at = (at + 1) % listed.len();
            run.push((cart, listed[at]));
        }
        for &(cart, to) in run.iter().rev() {
            self.go(cart, to);
        }
    }

    fn first_behind(&self, listed: &[u8], to: u8) -> Option<u8> {
        let size = listed.len();
        let at = place(listed, to) as usize;
        (1..size).find_map(|back| self.cart_on(listed[(at + size - back) % size]))
    }
}

fn place(listed: &[u8], point: u8) -> i32 {
    listed.iter().position(|&other| other == point).unwrap() as i32
}
