//! Block files: what every block has.

mod payload;
mod writer;

pub(crate) use payload::{open, Payload};
pub(crate) use writer::Writer;

use crate::answer::Refusal;

/// Bytes in a block.
const BLOCK: usize = 512;
/// Where the payload of a block begins.
const HEAD: usize = 6;
/// Most payload bytes in a block.
const PAYLOAD: usize = 504;
/// Where the checksum of a block stands.
const TAIL: usize = HEAD + PAYLOAD;

type Block = [u8; BLOCK];

/// What a file holds. The number is byte 0 of each of its blocks.
#[derive(Clone, Copy)]
pub(crate) enum Kind {
    Map = 1,
    Placing = 2,
    Plan = 3,
    MoveList = 4,
    RoundSheet = 5,
}

impl Kind {
    const fn most_blocks(self) -> usize {
        match self {
            Kind::Map => 9,
            Kind::Placing => 1,
            Kind::Plan => 64,
            Kind::MoveList | Kind::RoundSheet => 128,
        }
    }

    /// The refusal of a file of this kind: the last digit and the place.
    pub fn refuse(self, digit: u32, place: usize) -> Refusal {
        Refusal::new(10 * self as u32 + digit, place)
    }
}

/// The Internet checksum of RFC 1071, as a stored number.
pub fn checksum(bytes: &[u8]) -> u16 {
    let (words, rest) = bytes.as_chunks::<4>();
    let mut last = [0; 4];
    last[..rest.len()].copy_from_slice(rest);
    let mut sum = u64::from(u32::from_ne_bytes(last));
    for &word in words {
        sum += u64::from(u32::from_ne_bytes(word));
    }
    while sum > 0xffff {
        sum = (sum & 0xffff) + (sum >> 16);
    }
    !u16::from_be(sum as u16)
}

/// Bytes 0 to 3 of a block.
fn head(kind: Kind, number: usize) -> [u8; 4] {
    let [high, low] = (number as u16).to_be_bytes();
    [kind as u8, 0, high, low]
}

/// The fill a block names.
fn fill(block: &Block) -> usize {
    usize::from(u16::from_be_bytes([block[4], block[5]]))
}
