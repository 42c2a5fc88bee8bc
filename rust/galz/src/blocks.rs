//! Block files: their kinds, written and read.

use crate::fault::Fault;
use crate::words::count;

/// Bytes in a block.
pub const BLOCK: usize = 512;
/// Most payload bytes in a block.
pub const PAYLOAD: usize = 504;

/// The kinds of file, with document 01's number.
#[derive(Clone, Copy, Debug, PartialEq, Eq)]
pub enum FileKind {
    Map = 1,
    Placing = 2,
    Plan = 3,
    MoveList = 4,
    RoundSheet = 5,
}

impl FileKind {
    const ALL: [FileKind; 5] = [
        FileKind::Map,
        FileKind::Placing,
        FileKind::Plan,
        FileKind::MoveList,
        FileKind::RoundSheet,
    ];

    /// The file's name in a folder.
    pub fn name(self) -> &'static str {
        match self {
            FileKind::Map => "MAP",
            FileKind::Placing => "PLACING",
            FileKind::Plan => "PLAN",
            FileKind::MoveList => "MOVES",
            FileKind::RoundSheet => "ROUNDS",
        }
    }

    /// What it is called in a sentence.
    pub fn word(self) -> &'static str {
        match self {
            FileKind::Map => "map",
            FileKind::Placing => "placing",
            FileKind::Plan => "plan",
            FileKind::MoveList => "move list",
            FileKind::RoundSheet => "round sheet",
        }
    }

    /// Most blocks of such a file.
    pub fn most_blocks(self) -> usize {
        match self {
            FileKind::Map => 9,
            FileKind::Placing => 1,
            FileKind::Plan => 64,
            FileKind::MoveList | FileKind::RoundSheet => 128,
        }
    }

    /// A fault of such a file; the digit is the last of the returned number.
    pub fn fault(self, digit: u32, place: usize, words: String) -> Fault {
        Fault::new(self as u32 * 10 + digit, place, words)
    }
}

/// The Internet checksum (RFC 1071).
pub fn checksum(bytes: &[u8]) -> u16 {
    let words = bytes.chunks(2).map(|pair| match *pair {
        [high, low] => u32::from(high) << 8 | u32::from(low),
        _ => u32::from(pair[0]) << 8,
    });
    let mut sum: u32 = words.sum();
    while sum > 0xffff {
        sum = (sum >> 16) + (sum & 0xffff);
    }
    !(sum as u16)
}

/// The block file of a payload, which isn't empty.
pub fn file(kind: FileKind, payload: &[u8]) -> Vec<u8> {
    let mut blocks = Vec::new();
    for (number, part) in payload.chunks(PAYLOAD).enumerate() {
        let mut block = [0; BLOCK];
        block[0] = kind as u8;
        block[2..4].copy_from_slice(&(number as u16).to_be_bytes());
        block[4..6].copy_from_slice(&(part.len() as u16).to_be_bytes());
        block[6..6 + part.len()].copy_from_slice(part);
        let sum = checksum(&block[..510]);
        block[510..].copy_from_slice(&sum.to_be_bytes());
        blocks.extend_from_slice(&block);
    }
    blocks
}

/// The payload of a block file, or the first fault of its blocks.
pub fn payload(kind: FileKind, file: &[u8]) -> Result<Vec<u8>, Fault> {
    let name = kind.name();
    let blocks = file.len() / BLOCK;
    let most = kind.most_blocks();
    let length = if file.is_empty() {
        Some(format!("{name} is missing or empty"))
    } else if !file.len().is_multiple_of(BLOCK) {
        Some(format!(
            "{name} has {} bytes, which isn't whole blocks of {BLOCK}",
            file.len()
        ))
    } else if blocks > most {
        Some(format!(
            "{name} has {}, but a {} has at most {most}",
            count(blocks, "block"),
            kind.word()
        ))
    } else {
        None
    };
    if let Some(words) = length {
        return Err(kind.fault(1, 0, words));
    }
    let mut payload = Vec::new();
    for (number, block) in file.chunks(BLOCK).enumerate() {
        let at = |digit, words: String| {
            kind.fault(digit, number, format!("{name}, block {number}: {words}"))
        };
        if let Some(words) = wrong_checksum(block) {
            return Err(at(2, words));
        }
        if let Some(words) = wrong_head(kind, number, block) {
            return Err(at(3, words));
        }
        if let Some(words) = wrong_fill(block, number + 1 == blocks) {
            return Err(at(4, words));
        }
        payload.extend_from_slice(&block[6..6 + usize::from(word(block, 4))]);
    }
    Ok(payload)
}

/// A two-byte number of a block.
fn word(block: &[u8], offset: usize) -> u16 {
    u16::from_be_bytes([block[offset], block[offset + 1]])
}

fn wrong_checksum(block: &[u8]) -> Option<String> {
    let (stored, computed) = (word(block, 510), checksum(&block[..510]));
    (stored != computed).then(|| {
        format!("the checksum stored is {stored:04X}, but the bytes before it give {computed:04X}")
    })
}

fn wrong_head(kind: FileKind, number: usize, block: &[u8]) -> Option<String> {
    let expected = kind as u8;
    if block[0] != expected {
        let other = FileKind::ALL
            .into_iter()
            .find(|other| *other as u8 == block[0]);
        let found = other.map_or(String::new(), |other| format!(" ({})", other.word()));
        return Some(format!(
            "byte 0 is {}{found}, but a {} has {expected} there",
            block[0],
            kind.word()
        ));
    }
    if block[1] != 0 {
        return Some(format!("byte 1 is {}, but must be 0", block[1]));
    }
    let stored = word(block, 2);
    (usize::from(stored) != number).then(|| {
        format!("bytes 2-3 say that it is block {stored}, but it stands as block {number}")
    })
}

fn wrong_fill(block: &[u8], is_last: bool) -> Option<String> {
    let fill = usize::from(word(block, 4));
    if is_last && !(1..=PAYLOAD).contains(&fill) {
        return Some(format!(
            "the fill is {fill}, but the last block's is 1 to {PAYLOAD}"
        ));
    }
    if !is_last && fill != PAYLOAD {
        return Some(format!(
            "the fill is {fill}, but every block before the last has {PAYLOAD}"
        ));
    }
    let padding = 6 + fill..510;
    let byte = padding.into_iter().find(|&byte| block[byte] != 0)?;
    Some(format!(
        "byte {byte} is {}, but bytes after the fill of {fill} must be 0",
        block[byte]
    ))
}
