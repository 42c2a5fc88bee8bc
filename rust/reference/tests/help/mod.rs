//! Short words for the tests.
#![allow(dead_code)]

use reference::Answer;
use writing::{plan, Step, Yard};

/// Room for the longest answer.
pub const ROOM: usize = 65_536;

pub fn cleared() -> Answer {
    refused(0, 0)
}

pub fn refused(number: u32, place: u32) -> Answer {
    Answer { number, place }
}

pub fn judged(yard: &Yard, steps: &[Step]) -> Answer {
    reference::judge(&yard.map(), &yard.placing(), &plan(steps))
}

pub fn listed(yard: &Yard, steps: &[Step]) -> String {
    reference::listing(&yard.map(), &yard.placing(), &plan(steps))
}

/// The moves that resolving writes; it must succeed and draw back the plan.
pub fn resolved(yard: &Yard, steps: &[Step]) -> Vec<[u8; 3]> {
    let (map, placing, plan) = (yard.map(), yard.placing(), plan(steps));
    assert_eq!(reference::judge(&map, &placing, &plan), cleared());
    let (answer, list) = run(ROOM, |room| reference::resolve(&map, &placing, &plan, room));
    assert_eq!(answer.number, 0);
    let list = &list[..answer.place as usize];
    let (answer, drawn) = run(ROOM, |room| reference::draw(&map, &placing, list, room));
    assert_eq!(answer, refused(0, plan.len() as u32));
    assert_eq!(drawn[..plan.len()], plan);
    writing::moves(list)
}

/// Runs a service on a dirty buffer and checks what is left in it.
pub fn run(room: usize, service: impl FnOnce(&mut [u8]) -> Answer) -> (Answer, Vec<u8>) {
    let mut buffer = vec![0xa5; room];
    let answer = service(&mut buffer);
    let written = if answer.number == 0 {
        answer.place as usize
    } else {
        0
    };
    assert!(buffer[written..].iter().all(|&byte| byte == 0));
    (answer, buffer)
}
