#![forbid(unsafe_code)]
//! Block files written and taken apart for tests, random yards and walks.
//!
//! Nothing here checks what it writes: faulty files are written as well.

mod random;
mod walk;
mod yard;

pub use random::Random;
pub use walk::Walk;
pub use yard::{Step, Yard, CLIQUE, HALL, RING, STACK};

/// Bytes in a block.
pub const BLOCK: usize = 512;
/// Most payload bytes in a block.
pub const PAYLOAD: usize = 504;

/// Kinds of file.
pub const MAP: u8 = 1;
pub const PLACING: u8 = 2;
pub const PLAN: u8 = 3;
pub const MOVE_LIST: u8 = 4;
pub const ROUND_SHEET: u8 = 5;

/// The block file of a payload.
pub fn file(kind: u8, payload: &[u8]) -> Vec<u8> {
    let mut blocks = Vec::new();
    let mut rest = payload;
    let mut number = 0u16;
    loop {
        let (now, later) = rest.split_at(rest.len().min(PAYLOAD));
        let mut block = [0u8; BLOCK];
        block[0] = kind;
        block[2..4].copy_from_slice(&number.to_be_bytes());
        block[4..6].copy_from_slice(&(now.len() as u16).to_be_bytes());
        block[6..6 + now.len()].copy_from_slice(now);
        blocks.extend_from_slice(&block);
        mend(&mut blocks, usize::from(number));
        number = number.wrapping_add(1);
        rest = later;
        if rest.is_empty() {
            return blocks;
        }
    }
}

/// Puts the right checksum into a block of a file.
pub fn mend(file: &mut [u8], block: usize) {
    let block = &mut file[block * BLOCK..(block + 1) * BLOCK];
    let sum = checksum(&block[..510]);
    block[510..].copy_from_slice(&sum.to_be_bytes());
}

/// The Internet checksum, word by word with the carry brought round at once.
pub fn checksum(bytes: &[u8]) -> u16 {
    let mut sum = 0u16;
    for pair in bytes.chunks(2) {
        let word = u16::from_be_bytes([pair[0], pair.get(1).copied().unwrap_or(0)]);
        let (total, carry) = sum.overflowing_add(word);
        sum = total + u16::from(carry);
    }
    !sum
}

/// The payload of a good file.
pub fn payload(file: &[u8]) -> Vec<u8> {
    let mut payload = Vec::new();
    for block in file.chunks(BLOCK) {
        let fill = usize::from(u16::from_be_bytes([block[4], block[5]]));
        payload.extend_from_slice(&block[6..6 + fill]);
    }
    payload
}

/// The payload of a plan.
pub fn plan_payload(steps: &[Step]) -> Vec<u8> {
    let mut payload = (steps.len() as u16).to_be_bytes().to_vec();
    for step in steps {
        payload.extend_from_slice(&[step.cart, step.from, step.to, step.behind]);
        payload.extend_from_slice(&step.follow);
    }
    payload
}

/// A plan file.
pub fn plan(steps: &[Step]) -> Vec<u8> {
    file(PLAN, &plan_payload(steps))
}

/// The payload of a move list.
pub fn move_payload(moves: &[[u8; 3]]) -> Vec<u8> {
    let mut payload = (moves.len() as u16).to_be_bytes().to_vec();
    payload.extend_from_slice(moves.as_flattened());
    payload
}

/// A move list file.
pub fn move_list(moves: &[[u8; 3]]) -> Vec<u8> {
    file(MOVE_LIST, &move_payload(moves))
}

/// The moves of a good move list.
pub fn moves(list: &[u8]) -> Vec<[u8; 3]> {
    let payload = payload(list);
    payload[2..].as_chunks().0.to_vec()
}

/// The rounds of a good round sheet.
pub fn sheet(sheet: &[u8]) -> Vec<u16> {
    let payload = payload(sheet);
    let (pairs, _) = payload[2..].as_chunks();
    pairs.iter().map(|&pair| u16::from_be_bytes(pair)).collect()
}
