//! What holds for every case, and the comparison of implementations.

use reference::Answer;

use crate::case::Hex;
use crate::{Case, Implementation, Service};

/// Room for the longest answer.
const ROOM: usize = 65_536;
/// What the buffer is filled with before a call.
const DIRT: u8 = 0xa5;

/// What a call returned and left in the buffer.
#[derive(Clone, PartialEq, Eq)]
pub struct Outcome {
    pub answer: Answer,
    pub buffer: Vec<u8>,
}

impl Outcome {
    /// Runs a case on an implementation.
    pub fn of(case: &Case, implementation: &Implementation) -> Outcome {
        let Case {
            service,
            map,
            placing,
            input,
            room,
        } = case;
        let room = if *service == Service::Judge { 0 } else { *room };
        let mut buffer = vec![DIRT; room];
        let answer = match service {
            Service::Judge => (implementation.judge)(map, placing, input),
            Service::Resolve => (implementation.resolve)(map, placing, input, &mut buffer),
            Service::Draw => (implementation.draw)(map, placing, input, &mut buffer),
            Service::Rounds => (implementation.rounds)(map, placing, input, &mut buffer),
        };
        Outcome { answer, buffer }
    }

    fn is_success(&self) -> bool {
        self.answer.number == 0
    }

    /// The bytes written.
    fn written(&self) -> &[u8] {
        &self.buffer[..self.answer.place as usize]
    }

    /// Number, place and buffer as text.
    pub fn text(&self) -> String {
        let Answer { number, place } = self.answer;
        format!("{number} {place} {}", Hex(&self.buffer))
    }
}

/// A broken law: the case it showed in and what is wrong.
pub struct Violation {
    pub case: Case,
    pub fault: String,
}

/// Runs a case on all implementations and checks every law on it; gives the
/// first implementation's answer.
pub fn examine(case: &Case, implementations: &[Implementation]) -> Result<Outcome, Violation> {
    let [first, ..] = implementations else {
        return Err(violation(case, "no implementation".to_string()));
    };
    let mut expected = None;
    for related in related_cases(case, first) {
        let outcome = compare(&related, implementations)?;
        keep_laws(&related, first, &outcome).map_err(|fault| violation(&related, fault))?;
        expected.get_or_insert(outcome);
    }
    expected.ok_or(violation(case, "nothing was run".to_string()))
}

/// Runs a case on all implementations and holds number, place and the whole
/// buffer of each against the first; gives the first one's outcome.
pub fn compare(case: &Case, implementations: &[Implementation]) -> Result<Outcome, Violation> {
    let [first, others @ ..] = implementations else {
        return Err(violation(case, "no implementation".to_string()));
    };
    let expected = Outcome::of(case, first);
    for other in others {
        let found = Outcome::of(case, other);
        if found != expected {
            let mut fault = format!(
                "{} gives {} {}\n{} gives {} {}",
                first.name,
                expected.answer.number,
                expected.answer.place,
                other.name,
                found.answer.number,
                found.answer.place
            );
            let mut pairs = expected.buffer.iter().zip(&found.buffer).enumerate();
            if let Some((index, (one, two))) = pairs.find(|(_, (one, two))| one != two) {
                fault += &format!("\nat byte {index} they leave {one:02x} and {two:02x}");
            }
            return Err(violation(case, fault));
        }
    }
    Ok(expected)
}

fn violation(case: &Case, fault: String) -> Violation {
    Violation {
        case: case.clone(),
        fault,
    }
}

/// The case itself, then drawing and rounds of a list that it resolves to,
/// or judging and resolving of a plan that it draws.
fn related_cases(case: &Case, first: &Implementation) -> Vec<Case> {
    let mut cases = vec![case.clone()];
    let services = match case.service {
        Service::Resolve => [Service::Draw, Service::Rounds],
        Service::Draw => [Service::Judge, Service::Resolve],
        _ => return cases,
    };
    let outcome = Outcome::of(case, first);
    if outcome.is_success() && (outcome.answer.place as usize) <= case.room {
        cases.extend(services.map(|service| Case {
            service,
            input: outcome.written().to_vec(),
            room: case.room.max(1024),
            ..case.clone()
        }));
    }
    cases
}

/// The laws that need no second implementation.
fn keep_laws(
    case: &Case,
    implementation: &Implementation,
    outcome: &Outcome,
) -> Result<(), String> {
    let hold = |is_kept: bool, law: &str| {
        if is_kept {
            Ok(())
        } else {
            Err(format!("{law}: {}", outcome.text()))
        }
    };
    let Outcome { answer, buffer } = outcome;
    let written = answer.place as usize;
    let run = |service, input: &[u8]| {
        let case = Case {
            service,
            input: input.to_vec(),
            room: ROOM,
            ..case.clone()
        };
        Outcome::of(&case, implementation)
    };

    if outcome.is_success() {
        hold(written <= buffer.len(), "more written than the buffer has")?;
        hold(
            is_zero(&buffer[written..]),
            "the rest of the buffer isn't zero",
        )?;
        let whole = case.service == Service::Judge || (written > 0 && written.is_multiple_of(512));
        hold(whole, "not whole blocks")?;
    } else {
        hold(is_zero(buffer), "a refusal left bytes in the buffer")?;
        let known = matches!(answer.number,
            11..=19 | 21..=28 | 31..=39 | 41..=48 | 50 | 51 | 60 | 61);
        hold(known, "a number that isn't in the table")?;
    }
    match case.service {
        Service::Judge => {
            let resolved = run(Service::Resolve, &case.input).answer;
            hold(
                agree(*answer, resolved),
                "resolving doesn't agree with judging",
            )?;
        }
        Service::Resolve => {
            let judged = run(Service::Judge, &case.input).answer;
            hold(
                agree(judged, *answer),
                "judging doesn't agree with resolving",
            )?;
            if outcome.is_success() {
                let drawn = run(Service::Draw, outcome.written());
                hold(drawn.is_success(), "the list isn't drawn")?;
                hold(drawn.written() == case.input, "another plan is drawn back")?;
            }
        }
        Service::Draw => {
            let sheet = run(Service::Rounds, &case.input).answer;
            hold(agree(sheet, *answer), "rounds don't agree with drawing")?;
            if outcome.is_success() {
                let judged = run(Service::Judge, outcome.written()).answer;
                hold(judged.number == 0, "the plan drawn isn't cleared")?;
            }
        }
        Service::Rounds => {
            let drawn = run(Service::Draw, &case.input).answer;
            hold(agree(drawn, *answer), "drawing doesn't agree with rounds")?;
        }
    }
    Ok(())
}

fn is_zero(bytes: &[u8]) -> bool {
    bytes.iter().all(|&byte| byte == 0)
}

/// Whether two answers are the same apart from what is written: both accept
/// the files, or both refuse them with one number and place.
fn agree(one: Answer, other: Answer) -> bool {
    let accepts = |answer: Answer| matches!(answer.number, 0 | 60 | 61);
    if accepts(one) || accepts(other) {
        accepts(one) && accepts(other)
    } else {
        one == other
    }
}
