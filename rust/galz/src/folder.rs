//! The files of a folder on disk.

use std::fs;
use std::io::ErrorKind;
use std::path::Path;

use crate::blocks::FileKind;
use crate::yard::Files;

/// Reads MAP, PLACING, PLAN and MOVES of a folder; a missing one has length
/// 0.
pub fn read(folder: &Path) -> Result<Files, String> {
    if !folder.is_dir() {
        return Err(format!("{} is not a folder", folder.display()));
    }
    let file = |kind: FileKind| {
        let path = folder.join(kind.name());
        match fs::read(&path) {
            Ok(bytes) => Ok(bytes),
            Err(error) if error.kind() == ErrorKind::NotFound => Ok(Vec::new()),
            Err(error) => Err(format!("{}: {error}", path.display())),
        }
    };
    Ok(Files {
        map: file(FileKind::Map)?,
        placing: file(FileKind::Placing)?,
        plan: file(FileKind::Plan)?,
        moves: file(FileKind::MoveList)?,
    })
}

/// Writes the files of a folder, and takes away a PLAN or MOVES of another
/// yard. Says what was done, a line for each file.
pub fn write(folder: &Path, files: &Files) -> Result<String, String> {
    fs::create_dir_all(folder).map_err(|error| format!("{}: {error}", folder.display()))?;
    let mut done = String::new();
    for (kind, bytes) in [
        (FileKind::Map, &files.map),
        (FileKind::Placing, &files.placing),
        (FileKind::Plan, &files.plan),
        (FileKind::MoveList, &files.moves),
    ] {
        let path = folder.join(kind.name());
        let result = if bytes.is_empty() {
            match fs::remove_file(&path) {
                Ok(()) => Ok(format!("removed {}\n", path.display())),
                Err(error) if error.kind() == ErrorKind::NotFound => Ok(String::new()),
                Err(error) => Err(error),
            }
        } else {
            fs::write(&path, bytes)
                .map(|()| format!("wrote {} ({} bytes)\n", path.display(), bytes.len()))
        };
        done += &result.map_err(|error| format!("{}: {error}", path.display()))?;
    }
    Ok(done)
}
