//! The commands, from words to what is printed.

use std::fs;
use std::io::Read;
use std::path::Path;

use crate::explain::explain;
use crate::map::Map;
use crate::picture;
use crate::placing::Placing;
use crate::plan;
use crate::service::{listing, Answer, Service, ROOM};
use crate::yard::{Files, Yard};
use crate::{folder, help, text};

/// What a command prints and its exit status.
pub struct Outcome {
    pub status: u8,
    pub out: String,
    pub err: String,
}

impl Outcome {
    fn success(out: String) -> Outcome {
        Outcome {
            status: 0,
            out,
            err: String::new(),
        }
    }

    fn refusal(out: String, err: String) -> Outcome {
        Outcome {
            status: 1,
            out,
            err,
        }
    }

    fn misuse(message: &str) -> Outcome {
        Outcome {
            status: 2,
            out: String::new(),
            err: format!("galz: {message}\n"),
        }
    }
}

/// Runs a command.
pub fn run(words: &[&str]) -> Outcome {
    let Some((&command, rest)) = words.split_first() else {
        return Outcome {
            status: 2,
            out: String::new(),
            err: help::ALL.to_string(),
        };
    };
    let service = Service::ALL
        .into_iter()
        .find(|service| service.word() == command);
    let help = match command {
        "--help" | "-h" | "help" => help::ALL,
        "pack" => help::PACK,
        "unpack" => help::UNPACK,
        "judge" => help::JUDGE,
        "resolve" => help::RESOLVE,
        "draw" => help::DRAW,
        "rounds" => help::ROUNDS,
        "picture" => help::PICTURE,
        _ => {
            let message = format!("no command `{command}`; galz --help lists the commands");
            return Outcome::misuse(&message);
        }
    };
    let asks_help = rest.iter().any(|&word| word == "--help" || word == "-h");
    if asks_help || help == help::ALL {
        return Outcome::success(help.to_string());
    }
    let done = Options::read(rest, service, command).and_then(|options| match service {
        Some(service) => serve(service, &options),
        None if command == "pack" => pack(&options),
        None if command == "unpack" => unpack(&options),
        None => draw_picture(&options),
    });
    done.unwrap_or_else(|message| Outcome::misuse(&message))
}

/// The words after a command.
struct Options<'a> {
    names: Vec<&'a str>,
    explain: bool,
    output: Option<&'a Path>,
    room: usize,
}

impl<'a> Options<'a> {
    fn read(
        words: &[&'a str],
        service: Option<Service>,
        command: &str,
    ) -> Result<Options<'a>, String> {
        let help = format!("; galz {command} --help says how it is used");
        let writes = service.is_some_and(|service| service.answer().is_some());
        let mut options = Options {
            names: Vec::new(),
            explain: false,
            output: None,
            room: ROOM,
        };
        let mut words = words.iter();
        while let Some(&word) = words.next() {
            let mut value = || {
                let value = words.next().copied();
                value.ok_or(format!("nothing after {word}{help}"))
            };
            match word {
                "--explain" if service.is_some() => options.explain = true,
                "-o" if writes || command == "picture" => {
                    options.output = Some(Path::new(value()?));
                }
                "--room" if writes => {
                    let bytes = value()?;
                    let room = bytes.parse().ok().filter(|&room| room <= 1 << 30);
                    let message = format!("--room {bytes} is no number up to 1073741824{help}");
                    options.room = room.ok_or(message)?;
                }
                _ if word.starts_with('-') && word != "-" => {
                    return Err(format!("no option `{word}` of {command}{help}"))
                }
                _ => options.names.push(word),
            }
        }
        let wanted = if command == "pack" { 2 } else { 1 };
        if options.names.len() != wanted {
            let names = if wanted == 2 { "TEXT and DIR" } else { "DIR" };
            let given = match options.names[..] {
                [] => "nothing".to_string(),
                _ => options.names.join(" "),
            };
            return Err(format!("{command} takes {names}, not {given}{help}"));
        }
        if command == "picture" && options.output.is_none() {
            return Err(format!("picture needs -o FILE{help}"));
        }
        Ok(options)
    }

    /// The folder of the files, named last.
    fn folder(&self) -> &'a Path {
        Path::new(self.names[self.names.len() - 1])
    }
}

fn pack(options: &Options) -> Result<Outcome, String> {
    let name = options.names[0];
    let mut bytes = Vec::new();
    let read = if name == "-" {
        std::io::stdin().read_to_end(&mut bytes).map(|_| ())
    } else {
        fs::read(name).map(|read| bytes = read)
    };
    read.map_err(|error| format!("{name}: {error}"))?;
    let text = String::from_utf8(bytes).map_err(|error| {
        let good = &error.as_bytes()[..error.utf8_error().valid_up_to()];
        let good = String::from_utf8_lossy(good);
        let line = good.matches('\n').count() + 1;
        let column = good.chars().rev().take_while(|&c| c != '\n').count() + 1;
        format!("{name}:{line}:{column}: expected text in UTF-8")
    })?;
    let yard = text::read(&text).map_err(|error| format!("{name}:{error}"))?;
    let done = folder::write(options.folder(), &yard.files())?;
    Ok(Outcome::success(done))
}

fn unpack(options: &Options) -> Result<Outcome, String> {
    let files = folder::read(options.folder())?;
    Ok(match Yard::read(&files) {
        Ok(yard) => Outcome::success(text::write(&yard)),
        Err(fault) => {
            let folder = options.folder().display();
            let err = format!("galz: {folder} can't be shown as text: {}\n", fault.words);
            Outcome::refusal(String::new(), err)
        }
    })
}

fn serve(service: Service, options: &Options) -> Result<Outcome, String> {
    let files = folder::read(options.folder())?;
    let answer = service.call(&files, options.room);
    if answer.number != 0 {
        let mut out = format!("refused {} {}\n", answer.number, answer.place);
        if options.explain {
            let Answer { number, place, .. } = answer;
            out += &explain(service, &files, options.room, number, place);
            out.push('\n');
        }
        return Ok(Outcome::refusal(out, String::new()));
    }
    let out = match service {
        Service::Judge if options.explain => {
            "cleared\nevery step can be made, and then every zone can be brought to its goals\n"
                .to_string()
        }
        Service::Judge => "cleared\n".to_string(),
        Service::Resolve => {
            let moves = answer.bytes.clone();
            listed(&Files { moves, ..files })?
        }
        Service::Rounds => listed(&files)?,
        Service::Draw => steps(&files, &answer.bytes)?,
    };
    if let Some(path) = options.output {
        write(path, &answer.bytes)?;
    }
    Ok(Outcome::success(out))
}

fn listed(files: &Files) -> Result<String, String> {
    listing(files).map_err(|answer| {
        format!(
            "the library refuses the rounds of its own moves: {} {}",
            answer.number, answer.place
        )
    })
}

/// The steps of a plan that was drawn.
fn steps(files: &Files, plan: &[u8]) -> Result<String, String> {
    let read = || {
        let map = Map::read(&files.map).accepted()?;
        let placing = Placing::read(&map, &files.placing).accepted()?;
        plan::shown(&map, &placing, plan)
    };
    let steps = read().map_err(|fault| format!("the plan drawn can't be read: {}", fault.words))?;
    let mut text = format!("steps {}\n", steps.len());
    for step in steps {
        let bytes = [step.robot, step.from, step.to, step.behind];
        let numbers = bytes.iter().chain(&step.follow).map(u8::to_string);
        text += &numbers.collect::<Vec<_>>().join(" ");
        text.push('\n');
    }
    Ok(text)
}

fn write(path: &Path, bytes: &[u8]) -> Result<(), String> {
    fs::write(path, bytes).map_err(|error| format!("{}: {error}", path.display()))
}

fn draw_picture(options: &Options) -> Result<Outcome, String> {
    let path = options.output.unwrap_or(Path::new(""));
    let files = folder::read(options.folder())?;
    let folder = options.folder();
    let name = folder.canonicalize().unwrap_or(folder.to_path_buf());
    let name = name.file_name().unwrap_or(folder.as_os_str());
    let name = name.to_string_lossy();
    let extension = path.extension().and_then(|extension| extension.to_str());
    let drawn = match extension {
        Some("svg") => picture::svg(&name, &files),
        Some("html") => picture::page(&name, &files),
        _ => return Err(format!("{} ends in neither .svg nor .html", path.display())),
    };
    Ok(match drawn {
        Ok(text) => {
            write(path, text.as_bytes())?;
            Outcome::success(format!("wrote {}\n", path.display()))
        }
        Err((service, answer)) => {
            let Answer { number, place, .. } = answer;
            let words = explain(service, &files, ROOM, number, place);
            Outcome::refusal(
                format!("refused {number} {place}\n{words}\n"),
                String::new(),
            )
        }
    })
}
