//! The implementations that are run on the cases.

use reference::Answer;

/// Map, placing and plan.
type Judging = fn(&[u8], &[u8], &[u8]) -> Answer;
/// Map, placing, plan or move list, and the buffer.
type Writing = fn(&[u8], &[u8], &[u8], &mut [u8]) -> Answer;

/// The four services of one implementation.
pub struct Implementation {
    pub name: &'static str,
    pub judge: Judging,
    pub resolve: Writing,
    pub draw: Writing,
    pub rounds: Writing,
}

/// The Rust version.
pub const REFERENCE: Implementation = Implementation {
    name: "reference",
    judge: reference::judge,
    resolve: reference::resolve,
    draw: reference::draw,
    rounds: reference::rounds,
};

/// The implementations that `cases` runs; the others are held against the
/// first. The proved library is run by `compare`.
pub fn implementations() -> Vec<Implementation> {
    vec![REFERENCE]
}
