//! Cases as bytes, for the C programs of `host/`.

use crate::{Case, Outcome, Service};

/// A case and its outcome: eight numbers of four bytes, lowest byte first,
/// then map, placing, input and the buffer left, up to its last byte that
/// isn't zero. The numbers: service (0 judge, 1 resolve, 2 draw, 3 rounds),
/// the lengths of map, placing, input and buffer, the answer's number and
/// place, the length of what is told of the buffer.
pub fn call(case: &Case, outcome: &Outcome) -> Vec<u8> {
    let buffer = &outcome.buffer;
    let told = buffer.iter().rposition(|&byte| byte != 0);
    let told = &buffer[..told.map_or(0, |last| last + 1)];
    let lengths = [&case.map[..], &case.placing, &case.input, buffer].map(|file| file.len() as u32);
    let mut bytes = Vec::new();
    let mut put = |number: u32| bytes.extend_from_slice(&number.to_le_bytes());
    put(code(case.service));
    lengths.into_iter().for_each(&mut put);
    put(outcome.answer.number);
    put(outcome.answer.place);
    put(told.len() as u32);
    for file in [&case.map[..], &case.placing, &case.input, told] {
        bytes.extend_from_slice(file);
    }
    bytes
}

/// A case as an input of `host/fuzz`: the service, three bytes of the length
/// of the buffer, two each of map and placing, lowest first, then the files.
/// None if a length doesn't fit.
pub fn fuzz_input(case: &Case) -> Option<Vec<u8>> {
    let map = u16::try_from(case.map.len()).ok()?;
    let placing = u16::try_from(case.placing.len()).ok()?;
    let room = u32::try_from(case.room).ok()?.to_le_bytes();
    let mut bytes = vec![code(case.service) as u8];
    bytes.extend_from_slice(&room[..3]);
    bytes.extend_from_slice(&map.to_le_bytes());
    bytes.extend_from_slice(&placing.to_le_bytes());
    for file in [&case.map, &case.placing, &case.input] {
        bytes.extend_from_slice(file);
    }
    Some(bytes)
}

fn code(service: Service) -> u32 {
    match service {
        Service::Judge => 0,
        Service::Resolve => 1,
        Service::Draw => 2,
        Service::Rounds => 3,
    }
}
