//! What document 01 demands, worked out by plain search over legal moves.
//!
//! Nothing here knows what a configuration looks like: it is the set of the
//! arrangements that a breadth-first search reaches.
#![allow(dead_code)]

pub mod transcript;

use std::cell::RefCell;
use std::collections::{BTreeSet, HashMap, HashSet, VecDeque};
use std::rc::Rc;

use writing::{Yard, CLIQUE, RING};

pub const NONE: u8 = 255;

/// The cart on each listed place of a zone.
pub type Arrangement = Vec<u8>;
pub type Configuration = Rc<BTreeSet<Arrangement>>;

/// A yard made ready for searching.
pub struct World {
    pub zones: Vec<(u8, Vec<u8>)>,
    pub starts: Vec<u8>,
    pub goals: Vec<u8>,
    zone_of: Vec<usize>,
    place_of: Vec<usize>,
    joined: Vec<Vec<bool>>,
    known: RefCell<HashMap<(usize, Arrangement), Configuration>>,
}

impl World {
    pub fn new(yard: &Yard) -> World {
        let points = usize::from(yard.points);
        let mut world = World {
            zones: yard.zones.clone(),
            starts: yard.carts.iter().map(|&(start, _)| start).collect(),
            goals: yard.carts.iter().map(|&(_, goal)| goal).collect(),
            zone_of: vec![0; points],
            place_of: vec![0; points],
            joined: vec![vec![false; points]; points],
            known: RefCell::default(),
        };
        for (zone, (_, listed)) in yard.zones.iter().enumerate() {
            for (place, &point) in listed.iter().enumerate() {
                world.zone_of[usize::from(point)] = zone;
                world.place_of[usize::from(point)] = place;
            }
        }
        for &(a, b) in &yard.edges {
            world.joined[usize::from(a)][usize::from(b)] = true;
            world.joined[usize::from(b)][usize::from(a)] = true;
        }
        world
    }

    pub fn zone_of(&self, point: u8) -> usize {
        self.zone_of[usize::from(point)]
    }

    pub fn are_joined(&self, a: u8, b: u8) -> bool {
        self.joined[usize::from(a)][usize::from(b)]
    }

    fn place_of(&self, point: u8) -> usize {
        self.place_of[usize::from(point)]
    }

    fn points(&self) -> u8 {
        self.zone_of.len() as u8
    }

    /// The arrangement of a zone when the carts stand on these points.
    fn arrangement(&self, zone: usize, carts: &[u8]) -> Arrangement {
        let cart_on = |point: &u8| carts.iter().position(|other| other == point);
        let listed = self.zones[zone].1.iter();
        listed
            .map(|point| cart_on(point).map_or(NONE, |cart| cart as u8))
            .collect()
    }

    /// All arrangements that legal moves inside the zone reach.
    fn configuration(&self, zone: usize, from: Arrangement) -> Configuration {
        if let Some(known) = self.known.borrow().get(&(zone, from.clone())) {
            return known.clone();
        }
        let listed = &self.zones[zone].1;
        let mut reached = BTreeSet::from([from.clone()]);
        let mut waiting = VecDeque::from([from]);
        while let Some(arrangement) = waiting.pop_front() {
            for a in 0..listed.len() {
                for b in 0..listed.len() {
                    let is_legal = arrangement[a] != NONE
                        && arrangement[b] == NONE
                        && self.are_joined(listed[a], listed[b]);
                    if is_legal {
                        let mut next = arrangement.clone();
                        next.swap(a, b);
                        if reached.insert(next.clone()) {
                            waiting.push_back(next);
                        }
                    }
                }
            }
        }
        let configuration = Rc::new(reached);
        let mut known = self.known.borrow_mut();
        for arrangement in configuration.iter() {
            known.insert((zone, arrangement.clone()), configuration.clone());
        }
        configuration
    }

    /// The cart behind one that comes in at an empty place.
    fn behind(&self, zone: usize, arrangement: &[u8], place: usize) -> u8 {
        let (kind, listed) = &self.zones[zone];
        if *kind == CLIQUE {
            return NONE;
        }
        let mut at = place;
        loop {
            if at == 0 && *kind != RING {
                return NONE;
            }
            at = (at + listed.len() - 1) % listed.len();
            if at == place || arrangement[at] != NONE {
                return arrangement[at];
            }
        }
    }

    /// The bytes of the step that a crossing gives.
    fn drawn(&self, carts: &[u8], cart: u8, to: u8) -> Vec<u8> {
        let zone = self.zone_of(to);
        let mut inside = self.arrangement(zone, carts);
        let place = self.place_of(to);
        let behind = self.behind(zone, &inside, place);
        let mut bytes = vec![cart, carts[usize::from(cart)], to, behind];
        inside[place] = cart;
        if self.zones[zone].0 == CLIQUE && !inside.contains(&NONE) {
            bytes.extend_from_slice(&inside);
        }
        bytes
    }

    /// The returned number and place of judging a plan's payload: the first
    /// rule broken.
    pub fn judge(&self, payload: &[u8]) -> (u32, u32) {
        let Some((count, mut rest)) = payload.split_first_chunk::<2>() else {
            return (35, 0);
        };
        let count = u32::from(u16::from_be_bytes(*count));
        let mut configurations: Vec<Configuration> = (0..self.zones.len())
            .map(|zone| self.configuration(zone, self.arrangement(zone, &self.starts)))
            .collect();
        for number in 0..count {
            let Some((&[cart, from, to, behind], later)) = rest.split_first_chunk() else {
                return (35, number);
            };
            rest = later;
            let carts = self.starts.len();
            if usize::from(cart) >= carts || from >= self.points() || to >= self.points() {
                return (36, number);
            }
            let (left, entered) = (self.zone_of(from), self.zone_of(to));
            if !self.are_joined(from, to) || left == entered {
                return (37, number);
            }
            let after: HashSet<Configuration> = configurations[left]
                .iter()
                .filter(|arrangement| arrangement[self.place_of(from)] == cart)
                .map(|arrangement| {
                    let mut after = arrangement.clone();
                    after[self.place_of(from)] = NONE;
                    self.configuration(left, after)
                })
                .collect();
            match after.len() {
                0 => return (38, number),
                1 => configurations[left] = after.into_iter().next().unwrap(),
                _ => panic!("leaving gives one configuration"),
            }
            let empty = configurations[entered].first().unwrap().iter();
            let empty = empty.filter(|&&cart| cart == NONE).count();
            if empty == 0 {
                return (39, number);
            }
            let mut follow = None;
            let (kind, listed) = &self.zones[entered];
            if *kind == CLIQUE && empty == 1 {
                if rest.len() < listed.len() {
                    return (35, number);
                }
                let (list, later) = rest.split_at(listed.len());
                follow = Some(list);
                rest = later;
            }
            let place = self.place_of(to);
            let after: HashSet<Configuration> = configurations[entered]
                .iter()
                .filter(|arrangement| {
                    arrangement[place] == NONE && self.behind(entered, arrangement, place) == behind
                })
                .map(|arrangement| {
                    let mut after = arrangement.clone();
                    after[place] = cart;
                    after
                })
                .filter(|after| follow.is_none_or(|follow| *after == follow))
                .map(|after| self.configuration(entered, after))
                .collect();
            match after.len() {
                0 => return (39, number),
                1 => configurations[entered] = after.into_iter().next().unwrap(),
                _ => panic!("a step gives one configuration"),
            }
        }
        if !rest.is_empty() {
            return (35, count);
        }
        for (zone, configuration) in configurations.iter().enumerate() {
            if !configuration.contains(&self.arrangement(zone, &self.goals)) {
                return (50, zone as u32);
            }
        }
        (0, 0)
    }

    /// Whether some legal list from the starts to the goals draws a plan:
    /// search over states paired with how much of the plan is drawn.
    pub fn is_drawn_by_some_list(&self, payload: &[u8]) -> bool {
        let Some((count, steps)) = payload.split_first_chunk::<2>() else {
            return false;
        };
        let count = usize::from(u16::from_be_bytes(*count));
        let first = (self.starts.clone(), 0, 0);
        let goal = (self.goals.clone(), steps.len(), count);
        let mut seen = HashSet::from([first.clone()]);
        let mut waiting = vec![first];
        while let Some(node) = waiting.pop() {
            if node == goal {
                return true;
            }
            let (carts, offset, crossed) = node;
            for cart in 0..carts.len() {
                for to in 0..self.points() {
                    let from = carts[cart];
                    if !self.are_joined(from, to) || carts.contains(&to) {
                        continue;
                    }
                    let mut next = (carts.clone(), offset, crossed);
                    if self.zone_of(from) != self.zone_of(to) {
                        let bytes = self.drawn(&carts, cart as u8, to);
                        if !steps[offset..].starts_with(&bytes) {
                            continue;
                        }
                        next.1 += bytes.len();
                        next.2 += 1;
                    }
                    next.0[cart] = to;
                    if seen.insert(next.clone()) {
                        waiting.push(next);
                    }
                }
            }
        }
        false
    }

    /// Replays a list: the payload of the plan drawn and the points reached;
    /// nothing if a move isn't legal.
    pub fn replay(&self, moves: &[[u8; 3]]) -> Option<(Vec<u8>, Vec<u8>)> {
        let mut carts = self.starts.clone();
        let mut payload = vec![0, 0];
        let mut steps = 0u16;
        for &[cart, from, to] in moves {
            let is_legal = *carts.get(usize::from(cart))? == from
                && self.are_joined(from, to)
                && !carts.contains(&to);
            if !is_legal {
                return None;
            }
            if self.zone_of(from) != self.zone_of(to) {
                payload.extend(self.drawn(&carts, cart, to));
                steps += 1;
            }
            carts[usize::from(cart)] = to;
        }
        payload[..2].copy_from_slice(&steps.to_be_bytes());
        Some((payload, carts))
    }
}

/// The round of each move, from the rule's words.
pub fn rounds(moves: &[[u8; 3]]) -> Vec<u16> {
    let mut rounds: Vec<u16> = Vec::new();
    for (index, &[cart, _, to]) in moves.iter().enumerate() {
        let earlier = || moves[..index].iter().zip(&rounds).rev();
        let of_cart = earlier().find(|(other, _)| other[0] == cart);
        let of_end = earlier().find(|(other, _)| other[1] == to);
        let after = of_cart.map_or(0, |(_, round)| round + 1);
        let with = of_end.map_or(0, |(_, round)| *round);
        rounds.push(1.max(after).max(with));
    }
    rounds
}
