//! Legal walks over a yard, with the steps drawn from them.

use crate::{Random, Step, Yard, CLIQUE, RING};

/// Where the carts of a yard are, move after move.
#[derive(Clone)]
pub struct Walk {
    zones: Vec<(u8, Vec<u8>)>,
    zone_of: Vec<usize>,
    neighbours: Vec<Vec<u8>>,
    /// The tracks between zones, both ways.
    between: Vec<(u8, u8)>,
    point_of: Vec<u8>,
    cart_at: Vec<u8>,
}

impl Walk {
    /// A walk from the starts.
    pub fn new(yard: &Yard) -> Walk {
        let points = usize::from(yard.points);
        let mut walk = Walk {
            zones: yard.zones.clone(),
            zone_of: vec![0; points],
            neighbours: vec![Vec::new(); points],
            between: Vec::new(),
            point_of: yard.carts.iter().map(|&(start, _)| start).collect(),
            cart_at: vec![255; points],
        };
        for (zone, (_, listed)) in yard.zones.iter().enumerate() {
            for &point in listed {
                walk.zone_of[usize::from(point)] = zone;
            }
        }
        for &(a, b) in &yard.edges {
            walk.neighbours[usize::from(a)].push(b);
            walk.neighbours[usize::from(b)].push(a);
            if walk.zone_of(a) != walk.zone_of(b) {
                walk.between.extend([(a, b), (b, a)]);
            }
        }
        for (cart, &point) in walk.point_of.iter().enumerate() {
            walk.cart_at[usize::from(point)] = cart as u8;
        }
        walk
    }

    /// The point of each cart.
    pub fn points(&self) -> &[u8] {
        &self.point_of
    }

    /// The points joined to a point.
    pub fn neighbours(&self, point: u8) -> &[u8] {
        &self.neighbours[usize::from(point)]
    }

    /// The zone of a point.
    pub fn zone_of(&self, point: u8) -> usize {
        self.zone_of[usize::from(point)]
    }

    /// Whether a point has no cart.
    pub fn is_empty(&self, point: u8) -> bool {
        self.cart_at[usize::from(point)] == 255
    }

    /// Whether a move is between zones.
    pub fn is_crossing(&self, [_, from, to]: [u8; 3]) -> bool {
        self.zone_of(from) != self.zone_of(to)
    }

    /// A random legal move, if one is found in a few tries.
    pub fn find(&self, random: &mut Random) -> Option<[u8; 3]> {
        if self.point_of.is_empty() {
            return None;
        }
        (0..12).find_map(|_| {
            let cart = random.below(self.point_of.len());
            let from = self.point_of[cart];
            let ends = self.neighbours(from);
            if ends.is_empty() {
                return None;
            }
            let to = *random.pick(ends);
            self.is_empty(to).then_some([cart as u8, from, to])
        })
    }

    /// A random crossing after both its zones are stirred for it.
    pub fn find_crossing(&mut self, random: &mut Random) -> Option<[u8; 3]> {
        if self.between.is_empty() {
            return None;
        }
        for _ in 0..12 {
            let (from, to) = *random.pick(&self.between);
            self.stir(random, self.zone_of(from), Some(from), None);
            self.stir(random, self.zone_of(to), None, Some(to));
            let cart = self.cart_at[usize::from(from)];
            if cart != 255 && self.is_empty(to) {
                return Some([cart, from, to]);
            }
        }
        None
    }

    /// Stirs every zone.
    pub fn stir_all(&mut self, random: &mut Random) {
        for zone in 0..self.zones.len() {
            self.stir(random, zone, None, None);
        }
    }

    /// Puts the carts of a zone on random points that moves inside it could
    /// bring them to, one point being taken and another left empty if that
    /// can be.
    fn stir(&mut self, random: &mut Random, zone: usize, taken: Option<u8>, empty: Option<u8>) {
        let (kind, listed) = &self.zones[zone];
        let cart_on = |point: &u8| self.cart_at[usize::from(*point)];
        let mut carts: Vec<u8> = listed.iter().map(cart_on).filter(|&c| c != 255).collect();
        if carts.is_empty() || carts.len() == listed.len() {
            return;
        }
        match *kind {
            CLIQUE => random.shuffle(&mut carts),
            RING => {
                let turn = random.below(carts.len());
                carts.rotate_left(turn);
            }
            _ => (),
        }
        let mut places: Vec<usize> = (0..listed.len()).collect();
        random.shuffle(&mut places);
        places.sort_by_key(|&place| match Some(listed[place]) {
            point if point == taken => 0,
            point if point == empty => 2,
            _ => 1,
        });
        places.truncate(carts.len());
        places.sort();
        for point in listed {
            self.cart_at[usize::from(*point)] = 255;
        }
        for (&cart, &place) in carts.iter().zip(&places) {
            self.point_of[usize::from(cart)] = listed[place];
            self.cart_at[usize::from(listed[place])] = cart;
        }
    }

    /// Makes a legal move; gives the step if it is between zones.
    pub fn make(&mut self, [cart, from, to]: [u8; 3]) -> Option<Step> {
        let step = self.is_crossing([cart, from, to]).then(|| {
            let (behind, follow) = self.entry(cart, to);
            Step::filling(cart, from, to, behind, &follow)
        });
        self.cart_at[usize::from(from)] = 255;
        self.cart_at[usize::from(to)] = cart;
        self.point_of[usize::from(cart)] = to;
        step
    }

    /// Behind and follow list of a cart that comes in.
    fn entry(&self, cart: u8, to: u8) -> (u8, Vec<u8>) {
        let (kind, listed) = &self.zones[self.zone_of(to)];
        let mut inside: Vec<u8> = listed
            .iter()
            .map(|&point| self.cart_at[usize::from(point)])
            .collect();
        let place = listed.iter().position(|&point| point == to).unwrap_or(0);
        if *kind == CLIQUE {
            inside[place] = cart;
            if inside.contains(&255) {
                inside.clear();
            }
            return (255, inside);
        }
        let lower = inside[..place].iter().rev();
        let higher = inside[place..].iter().rev().filter(|_| *kind == RING);
        let behind = lower.chain(higher).find(|&&robot| robot != 255);
        (behind.copied().unwrap_or(255), Vec::new())
    }
}
