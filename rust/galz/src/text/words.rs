//! The words of a line, with their columns.

use super::TextError;

/// The words of a line that are not yet read.
pub struct Words<'a> {
    line: usize,
    /// Each word with its column.
    words: Vec<(usize, &'a str)>,
    next: usize,
    /// The column after the last word.
    end: usize,
}

impl<'a> Words<'a> {
    pub fn new(line: usize, text: &'a str) -> Words<'a> {
        let text = text.split('#').next().unwrap_or("");
        let mut words = Vec::new();
        let mut start = None;
        let mut end = 1;
        for (column, (byte, letter)) in (1..).zip(text.char_indices()) {
            match (start, letter.is_whitespace()) {
                (None, false) => start = Some((column, byte)),
                (Some((column, from)), true) => {
                    words.push((column, &text[from..byte]));
                    start = None;
                }
                _ => (),
            }
            if !letter.is_whitespace() {
                end = column + 1;
            }
        }
        if let Some((column, from)) = start {
            words.push((column, &text[from..]));
        }
        Words {
            line,
            words,
            next: 0,
            end,
        }
    }

    pub fn is_at_end(&self) -> bool {
        self.next == self.words.len()
    }

    /// The next word, if there is one.
    pub fn peek(&self) -> Option<&'a str> {
        self.words.get(self.next).map(|&(_, word)| word)
    }

    /// An error at the next word.
    pub fn error(&self, expected: &str) -> TextError {
        let (column, found) = match self.words.get(self.next) {
            Some(&(column, word)) => (column, format!("`{word}`")),
            None => (self.end, "the end of the line".to_string()),
        };
        TextError {
            line: self.line,
            column,
            expected: expected.to_string(),
            found,
        }
    }

    /// An error at the line's first word.
    pub fn error_at_start(&mut self, expected: &str) -> TextError {
        self.next = 0;
        self.error(expected)
    }

    /// Reads a given word.
    pub fn word(&mut self, word: &str) -> Result<(), TextError> {
        if self.peek() != Some(word) {
            return Err(self.error(&format!("`{word}`")));
        }
        self.next += 1;
        Ok(())
    }

    /// Reads a given word if it is next.
    pub fn has(&mut self, word: &str) -> bool {
        let is_next = self.peek() == Some(word);
        self.next += usize::from(is_next);
        is_next
    }

    /// Reads a number of one byte.
    pub fn number(&mut self, what: &str) -> Result<u8, TextError> {
        let number = self.peek().and_then(as_number);
        let number =
            number.ok_or_else(|| self.error(&format!("{what}, a number from 0 to 255")))?;
        self.next += 1;
        Ok(number)
    }

    /// Reads the numbers up to the end of the line.
    pub fn numbers(&mut self, what: &str) -> Result<Vec<u8>, TextError> {
        let mut numbers = Vec::new();
        while !self.is_at_end() {
            if numbers.len() == 255 {
                return Err(self.error("the end of the line after 255 numbers"));
            }
            numbers.push(self.number(what)?);
        }
        Ok(numbers)
    }

    /// Reads the number that comes next in a numbering from 0.
    pub fn numbered(&mut self, what: &str, next: usize) -> Result<(), TextError> {
        if next == 255 {
            return Err(self.error_at_start(&format!("no more than 255 {what}s")));
        }
        if self.peek().and_then(as_number).map(usize::from) != Some(next) {
            return Err(self.error(&format!("{next}, the number of the next {what}")));
        }
        self.next += 1;
        Ok(())
    }

    pub fn end(&self) -> Result<(), TextError> {
        if self.is_at_end() {
            Ok(())
        } else {
            Err(self.error("the end of the line"))
        }
    }
}

/// A number of one byte, in digits without a sign.
fn as_number(word: &str) -> Option<u8> {
    let is_digits = word.bytes().all(|byte| byte.is_ascii_digit());
    word.parse().ok().filter(|_| is_digits)
}
