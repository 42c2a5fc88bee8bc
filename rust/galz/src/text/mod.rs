//! The text form of a yard, written and read; docs/TEXT.md says what it is.

mod draft;
mod words;
mod writing;

pub use writing::write;

use std::fmt::{self, Display, Formatter};

use crate::map::Zone;
use crate::yard::Yard;
use draft::Draft;
use words::Words;

/// Where a text can't be read, what was expected there and what is there.
#[derive(Clone, Debug, PartialEq, Eq)]
pub struct TextError {
    /// From 1.
    pub line: usize,
    /// In characters, from 1.
    pub column: usize,
    pub expected: String,
    pub found: String,
}

impl Display for TextError {
    fn fmt(&self, out: &mut Formatter) -> fmt::Result {
        write!(
            out,
            "{}:{}: expected {}, found {}",
            self.line, self.column, self.expected, self.found
        )
    }
}

/// Reads the text of a yard.
pub fn read(text: &str) -> Result<Yard, TextError> {
    // Some editors put a mark before the first letter.
    let text = text.strip_prefix('\u{feff}').unwrap_or(text);
    let mut draft = Draft::default();
    let mut lines = 0;
    for (index, line) in text.lines().enumerate() {
        lines = index + 1;
        let mut words = Words::new(lines, line);
        if !words.is_at_end() {
            draft.line(&mut words)?;
            words.end()?;
        }
    }
    draft.finish(lines + 1)
}

/// How many vertices the zones list.
fn listed(zones: &[Zone]) -> usize {
    zones.iter().map(|zone| zone.vertices.len()).sum()
}
