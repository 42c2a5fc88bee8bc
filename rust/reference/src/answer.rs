//! What a service returns.

/// The returned number and its place.
///
/// On success the number is 0 and the place is the count of bytes written,
/// 0 in judging.
#[derive(Clone, Copy, Debug, PartialEq, Eq)]
pub struct Answer {
    pub number: u32,
    pub place: u32,
}

/// A number other than 0, with its place.
#[derive(Clone, Copy, Debug)]
pub(crate) struct Refusal {
    number: u32,
    place: u32,
}

impl Refusal {
    pub fn new(number: u32, place: usize) -> Self {
        let place = place as u32;
        Refusal { number, place }
    }
}

/// Runs a service and leaves the buffer zero if it refuses.
pub(crate) fn settle(
    buffer: &mut [u8],
    service: impl FnOnce(&mut [u8]) -> Result<usize, Refusal>,
) -> Answer {
    match service(buffer) {
        Ok(written) => Answer {
            number: 0,
            place: written as u32,
        },
        Err(Refusal { number, place }) => {
            buffer.fill(0);
            Answer { number, place }
        }
    }
}
