//! Writing: an answer in blocks.

use super::{checksum, head, Kind, BLOCK, HEAD, PAYLOAD, TAIL};
use crate::answer::Refusal;

/// An answer file, written into the buffer as its fields come.
///
/// Its payload begins with a two-byte count, put in at the end. Fields that
/// the buffer has no room for are only counted.
pub(crate) struct Writer<'a> {
    kind: Kind,
    buffer: &'a mut [u8],
    /// Where in the buffer the next byte goes, or the checksum before it.
    next: usize,
    /// Payload bytes so far.
    length: usize,
}

impl<'a> Writer<'a> {
    pub fn new(kind: Kind, buffer: &'a mut [u8]) -> Self {
        Writer {
            kind,
            buffer,
            next: HEAD + 2,
            length: 2,
        }
    }

    /// Whether the answer needs more blocks than its kind has.
    #[inline]
    pub fn is_over(&self) -> bool {
        self.length > self.kind.most_blocks() * PAYLOAD
    }

    /// Writes the next fields.
    #[inline]
    pub fn push(&mut self, fields: &[u8]) {
        self.length += fields.len();
        if self.is_over() {
            return;
        }
        let end = self.next + fields.len();
        if end <= self.next / BLOCK * BLOCK + TAIL {
            if let Some(target) = self.buffer.get_mut(self.next..end) {
                target.copy_from_slice(fields);
            }
            self.next = end;
        } else {
            self.push_across(fields);
        }
    }

    /// Writes fields that run from one block into the next.
    fn push_across(&mut self, fields: &[u8]) {
        for &field in fields {
            if self.next % BLOCK == TAIL {
                self.next += BLOCK - PAYLOAD;
            }
            if let Some(target) = self.buffer.get_mut(self.next) {
                *target = field;
            }
            self.next += 1;
        }
    }

    /// Puts in the count and the blocks' own fields; gives the bytes written.
    pub fn finish(self, count: u16) -> Result<usize, Refusal> {
        if self.is_over() {
            return Err(Refusal::new(61, 0));
        }
        let last = (self.length - 1) / PAYLOAD;
        let bytes = (last + 1) * BLOCK;
        if bytes > self.buffer.len() {
            return Err(Refusal::new(60, 0));
        }
        self.buffer[HEAD..HEAD + 2].copy_from_slice(&count.to_be_bytes());
        self.buffer[self.next..].fill(0);
        let (blocks, _) = self.buffer[..bytes].as_chunks_mut::<BLOCK>();
        for (number, block) in blocks.iter_mut().enumerate() {
            let fill = PAYLOAD.min(self.length - number * PAYLOAD) as u16;
            block[..4].copy_from_slice(&head(self.kind, number));
            block[4..HEAD].copy_from_slice(&fill.to_be_bytes());
            let sum = checksum(&block[..TAIL]);
            block[TAIL..].copy_from_slice(&sum.to_be_bytes());
        }
        Ok(bytes)
    }
}
