//! The laws and the comparison catch implementations that break them.
#![forbid(unsafe_code)]

use cases::{examine, implementations, Case, Generator, Implementation};
use reference::Answer;

fn honest() -> Implementation {
    implementations().remove(0)
}

/// Whether some of many cases shows a fault.
fn is_caught(implementations: &[Implementation], fault: &str) -> bool {
    let mut generator = Generator::small(1);
    (0..2000).any(|_| {
        let case: Case = generator.next_case();
        match examine(&case, implementations) {
            Ok(_) => false,
            Err(violation) => {
                assert!(violation.fault.contains(fault), "{}", violation.fault);
                true
            }
        }
    })
}

#[test]
fn the_reference_is_not_caught() {
    assert!(!is_caught(&[honest()], ""));
    assert!(!is_caught(&[honest(), honest()], ""));
}

#[test]
fn a_refusal_that_leaves_bytes_is_caught() {
    fn dirty(map: &[u8], placing: &[u8], list: &[u8], buffer: &mut [u8]) -> Answer {
        let answer = reference::draw(map, placing, list, buffer);
        if let (1.., Some(last)) = (answer.number, buffer.last_mut()) {
            *last = 1;
        }
        answer
    }
    let broken = Implementation {
        draw: dirty,
        ..honest()
    };
    assert!(is_caught(&[broken], "a refusal left bytes"));
}

#[test]
fn bytes_after_the_answer_are_caught() {
    fn dirty(map: &[u8], placing: &[u8], list: &[u8], buffer: &mut [u8]) -> Answer {
        let answer = reference::rounds(map, placing, list, buffer);
        if answer.number == 0 && buffer.len() > answer.place as usize {
            buffer[answer.place as usize] = 1;
        }
        answer
    }
    let broken = Implementation {
        rounds: dirty,
        ..honest()
    };
    assert!(is_caught(&[broken], "the rest of the buffer"));
}

#[test]
fn clearing_everything_is_caught() {
    fn clear(_: &[u8], _: &[u8], _: &[u8]) -> Answer {
        Answer {
            number: 0,
            place: 0,
        }
    }
    let broken = Implementation {
        judge: clear,
        ..honest()
    };
    assert!(is_caught(&[broken], "agree"));
}

#[test]
fn an_empty_list_for_every_plan_is_caught() {
    fn empty(map: &[u8], placing: &[u8], plan: &[u8], buffer: &mut [u8]) -> Answer {
        let answer = reference::resolve(map, placing, plan, buffer);
        if answer.number != 0 {
            return answer;
        }
        buffer.fill(0);
        buffer[..512].copy_from_slice(&writing::move_list(&[]));
        Answer {
            number: 0,
            place: 512,
        }
    }
    let broken = Implementation {
        resolve: empty,
        ..honest()
    };
    assert!(is_caught(&[broken], "drawn"));
}

#[test]
fn another_place_is_caught_in_comparison() {
    fn shifted(map: &[u8], placing: &[u8], plan: &[u8]) -> Answer {
        let answer = reference::judge(map, placing, plan);
        let place = answer.place + u32::from(answer.number == 38);
        Answer { place, ..answer }
    }
    let other = Implementation {
        name: "shifted",
        judge: shifted,
        ..honest()
    };
    assert!(is_caught(&[honest(), other], "shifted gives 38"));
}
