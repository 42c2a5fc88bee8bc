//! One call of one service, as text and back.

use std::fmt::{self, Display, Formatter};
use std::str::FromStr;

/// The four services.
#[derive(Clone, Copy, Debug, PartialEq, Eq, PartialOrd, Ord)]
pub enum Service {
    Judge,
    Resolve,
    Draw,
    Rounds,
}

impl Service {
    pub const ALL: [Service; 4] = [
        Service::Judge,
        Service::Resolve,
        Service::Draw,
        Service::Rounds,
    ];

    /// Its word in the text of a case.
    pub fn word(self) -> &'static str {
        match self {
            Service::Judge => "judge",
            Service::Resolve => "resolve",
            Service::Draw => "draw",
            Service::Rounds => "rounds",
        }
    }

    /// Whether its third file is a plan.
    pub fn takes_plan(self) -> bool {
        matches!(self, Service::Judge | Service::Resolve)
    }
}

/// A service, its three files and the length of its buffer.
#[derive(Clone, Debug, PartialEq, Eq)]
pub struct Case {
    pub service: Service,
    pub map: Vec<u8>,
    pub placing: Vec<u8>,
    pub input: Vec<u8>,
    pub room: usize,
}

impl Case {
    /// The same files and room for another service.
    pub fn for_service(&self, service: Service) -> Case {
        Case {
            service,
            ..self.clone()
        }
    }
}

impl Display for Case {
    fn fmt(&self, out: &mut Formatter) -> fmt::Result {
        out.write_str(self.service.word())?;
        for file in [&self.map, &self.placing, &self.input] {
            write!(out, " {}", Hex(file))?;
        }
        write!(out, " {}", self.room)
    }
}

impl FromStr for Case {
    type Err = String;

    /// Reads the first five words of a line; what follows is left.
    fn from_str(text: &str) -> Result<Case, String> {
        let mut words = text.split_whitespace();
        let mut word = |name: &str| words.next().ok_or(format!("no {name}"));
        let service = word("service")?;
        let service = Service::ALL
            .into_iter()
            .find(|known| known.word() == service)
            .ok_or(format!("no service {service}"))?;
        let map = bytes(word("map")?)?;
        let placing = bytes(word("placing")?)?;
        let input = bytes(word("input")?)?;
        let room = word("room")?;
        let room = room.parse().map_err(|_| format!("no room {room}"))?;
        Ok(Case {
            service,
            map,
            placing,
            input,
            room,
        })
    }
}

/// Bytes shown in hexadecimal, or `-` if there are none.
pub struct Hex<'a>(pub &'a [u8]);

impl Display for Hex<'_> {
    fn fmt(&self, out: &mut Formatter) -> fmt::Result {
        if self.0.is_empty() {
            return out.write_str("-");
        }
        const DIGITS: &[u8; 16] = b"0123456789abcdef";
        let digit = |half: u8| char::from(DIGITS[usize::from(half)]);
        let text: String = self
            .0
            .iter()
            .flat_map(|&byte| [digit(byte >> 4), digit(byte & 15)])
            .collect();
        out.write_str(&text)
    }
}

fn bytes(text: &str) -> Result<Vec<u8>, String> {
    if text == "-" {
        return Ok(Vec::new());
    }
    let (pairs, rest) = text.as_bytes().as_chunks::<2>();
    let digit = |byte: u8| char::from(byte).to_digit(16).map(|digit| digit as u8);
    let byte = |&[high, low]: &[u8; 2]| Some(digit(high)? << 4 | digit(low)?);
    let bytes: Option<Vec<u8>> = pairs.iter().map(byte).collect();
    match bytes {
        Some(bytes) if rest.is_empty() => Ok(bytes),
        _ => Err("not hexadecimal".to_string()),
    }
}
