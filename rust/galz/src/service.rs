//! The four services of the proved library.

use crate::blocks::FileKind;
use crate::moves;
use crate::yard::Files;

/// Room for the longest answer: 128 blocks.
pub const ROOM: usize = 65_536;

/// The four services.
#[derive(Clone, Copy, Debug, PartialEq, Eq)]
pub enum Service {
    Judge,
    Resolve,
    Draw,
    Rounds,
}

/// Number and place as the library returns them, and the bytes written.
pub struct Answer {
    pub number: u32,
    pub place: u32,
    pub bytes: Vec<u8>,
}

impl Service {
    pub const ALL: [Service; 4] = [
        Service::Judge,
        Service::Resolve,
        Service::Draw,
        Service::Rounds,
    ];

    /// Its word on the command line.
    pub fn word(self) -> &'static str {
        match self {
            Service::Judge => "judge",
            Service::Resolve => "resolve",
            Service::Draw => "draw",
            Service::Rounds => "rounds",
        }
    }

    /// The file it reads beside map and placing.
    pub fn input(self) -> FileKind {
        match self {
            Service::Judge | Service::Resolve => FileKind::Plan,
            Service::Draw | Service::Rounds => FileKind::MoveList,
        }
    }

    /// The file it writes.
    pub fn answer(self) -> Option<FileKind> {
        match self {
            Service::Judge => None,
            Service::Resolve => Some(FileKind::MoveList),
            Service::Draw => Some(FileKind::Plan),
            Service::Rounds => Some(FileKind::RoundSheet),
        }
    }

    /// Calls the proved library, lending a buffer of so many bytes.
    pub fn call(self, files: &Files, room: usize) -> Answer {
        let (map, placing) = (&files.map, &files.placing);
        let mut bytes = vec![0; room];
        let answer = match self {
            Service::Judge => library::judge(map, placing, &files.plan),
            Service::Resolve => library::resolve(map, placing, &files.plan, &mut bytes),
            Service::Draw => library::draw(map, placing, &files.moves, &mut bytes),
            Service::Rounds => library::rounds(map, placing, &files.moves, &mut bytes),
        };
        bytes.truncate(if answer.number == 0 {
            answer.place as usize
        } else {
            0
        });
        Answer {
            number: answer.number,
            place: answer.place,
            bytes,
        }
    }
}

/// The text of a move list with its rounds, as document 01 lists it. Rounds
/// come from the proved library.
pub fn listing(files: &Files) -> Result<String, Answer> {
    let sheet = Service::Rounds.call(files, ROOM);
    if sheet.number != 0 {
        return Err(sheet);
    }
    let moves = moves::read(&files.moves).unwrap_or_default();
    let rounds = moves::rounds(&sheet.bytes).unwrap_or_default();
    let mut text = format!("moves {}\n", moves.len());
    for (next, round) in moves.iter().zip(rounds) {
        text.push_str(&format!(
            "{} {} {} {round}\n",
            next.robot, next.from, next.to
        ));
    }
    Ok(text)
}
