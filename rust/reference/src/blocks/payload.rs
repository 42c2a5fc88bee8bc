//! Reading: the checks of a file's blocks, then its payload.

use super::{checksum, fill, head, Block, Kind, BLOCK, HEAD, PAYLOAD, TAIL};
use crate::answer::Refusal;

/// Checks the length and the blocks of a file, and opens its payload.
pub(crate) fn open(kind: Kind, file: &[u8]) -> Result<Payload<'_>, Refusal> {
    let (blocks, rest) = file.as_chunks::<BLOCK>();
    let (Some(last), true) = (blocks.len().checked_sub(1), rest.is_empty()) else {
        return Err(kind.refuse(1, 0));
    };
    if blocks.len() > kind.most_blocks() {
        return Err(kind.refuse(1, 0));
    }
    for (number, block) in blocks.iter().enumerate() {
        check(kind, number, block, number == last).map_err(|digit| kind.refuse(digit, number))?;
    }
    Ok(Payload {
        current: &[],
        later: blocks,
        offset: 0,
    })
}

/// Checks one block; the error is the refusal's last digit.
fn check(kind: Kind, number: usize, block: &Block, is_last: bool) -> Result<(), u32> {
    if block[TAIL..] != checksum(&block[..TAIL]).to_be_bytes() {
        return Err(2);
    }
    if block[..4] != head(kind, number) {
        return Err(3);
    }
    let fill = fill(block);
    let is_good = if is_last {
        (1..=PAYLOAD).contains(&fill) && is_zero(&block[HEAD + fill..TAIL])
    } else {
        fill == PAYLOAD
    };
    if is_good {
        Ok(())
    } else {
        Err(4)
    }
}

fn is_zero(bytes: &[u8]) -> bool {
    bytes.iter().fold(0, |all, byte| all | byte) == 0
}

/// The payload of a checked file, read from its start.
pub(crate) struct Payload<'a> {
    current: &'a [u8],
    later: &'a [Block],
    offset: usize,
}

impl Payload<'_> {
    /// The payload offset of the next byte.
    pub fn offset(&self) -> usize {
        self.offset
    }

    /// Whether every byte has been read.
    pub fn is_finished(&self) -> bool {
        self.current.is_empty() && self.later.is_empty()
    }

    /// The next byte.
    pub fn byte(&mut self) -> Option<u8> {
        self.array().map(|[byte]| byte)
    }

    /// The next two bytes as a number.
    pub fn number(&mut self) -> Option<u16> {
        self.array().map(u16::from_be_bytes)
    }

    /// The next N bytes; if there are fewer, those are taken as well.
    #[inline]
    pub fn array<const N: usize>(&mut self) -> Option<[u8; N]> {
        if let Some((&bytes, rest)) = self.current.split_first_chunk() {
            self.current = rest;
            self.offset += N;
            return Some(bytes);
        }
        let mut bytes = [0; N];
        self.fill(&mut bytes).then_some(bytes)
    }

    /// Fills a slice with the next bytes; false if there are too few.
    pub fn fill(&mut self, mut target: &mut [u8]) -> bool {
        while !target.is_empty() {
            if self.current.is_empty() {
                let Some((block, later)) = self.later.split_first() else {
                    return false;
                };
                self.current = &block[HEAD..HEAD + fill(block)];
                self.later = later;
            }
            let count = target.len().min(self.current.len());
            let (now, then) = target.split_at_mut(count);
            let (bytes, rest) = self.current.split_at(count);
            now.copy_from_slice(bytes);
            self.current = rest;
            self.offset += count;
            target = then;
        }
        true
    }
}
