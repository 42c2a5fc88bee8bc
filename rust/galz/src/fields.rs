//! Fields of a payload, read one after another.

use crate::fault::{Fault, First};

/// What was read: the value if every field could be read, and the first
/// fault if there is one. A value with a fault is not accepted, but can be
/// shown.
pub struct Reading<T> {
    pub value: Option<T>,
    pub fault: Option<Fault>,
}

impl<T> Reading<T> {
    /// Runs a reader that notes faults as it goes.
    pub fn of(read: impl FnOnce(&mut First) -> Option<T>) -> Reading<T> {
        let mut first = First::default();
        let value = read(&mut first);
        Reading {
            value,
            fault: first.fault(),
        }
    }

    /// The value if it is accepted, or the fault.
    pub fn accepted(self) -> Result<T, Fault> {
        match (self.fault, self.value) {
            (None, Some(value)) => Ok(value),
            (Some(fault), _) => Err(fault),
            (None, None) => unreachable!("a reading without a value has a fault"),
        }
    }
}

/// A payload and how much of it is read.
pub struct Fields<'a> {
    payload: &'a [u8],
    offset: usize,
}

impl<'a> Fields<'a> {
    pub fn new(payload: &'a [u8]) -> Fields<'a> {
        Fields { payload, offset: 0 }
    }

    /// The offset of the next field.
    pub fn offset(&self) -> usize {
        self.offset
    }

    /// How many bytes are left.
    pub fn left(&self) -> usize {
        self.payload.len() - self.offset
    }

    /// The next bytes, or none if fewer are left.
    pub fn bytes(&mut self, count: usize) -> Option<&'a [u8]> {
        let bytes = self.payload.get(self.offset..self.offset + count)?;
        self.offset += count;
        Some(bytes)
    }

    pub fn byte(&mut self) -> Option<u8> {
        self.bytes(1).map(|bytes| bytes[0])
    }

    /// A two-byte number.
    pub fn word(&mut self) -> Option<u16> {
        self.bytes(2)
            .map(|bytes| u16::from_be_bytes([bytes[0], bytes[1]]))
    }
}
