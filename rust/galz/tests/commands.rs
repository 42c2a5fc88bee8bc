//! The program's words, what it prints, and its exit statuses.
#![forbid(unsafe_code)]

mod help;

use std::fs;
use std::path::Path;

use help::{examples, files, folder, folder_of, galz, Printed};

/// What document 01 lists for Yard A.
const LISTING: &str = "moves 6\n0 1 0 1\n0 0 3 2\n1 2 1 1\n1 1 0 2\n0 3 4 3\n1 0 3 3\n";
const COMMANDS: [&str; 7] = [
    "pack", "unpack", "judge", "resolve", "draw", "rounds", "picture",
];

fn word(path: &Path) -> &str {
    path.to_str().expect("a plain path")
}

/// Yard A, packed by the program.
fn yard_a(name: &str) -> std::path::PathBuf {
    let folder = folder(name);
    let text = examples().join("yard-a.txt");
    let packed = galz(&["pack", word(&text), word(&folder)]);
    assert_eq!((packed.status, packed.err.as_str()), (0, ""));
    folder
}

fn success(out: &str) -> Printed {
    Printed {
        status: 0,
        out: out.to_string(),
        err: String::new(),
    }
}

#[test]
fn yard_a_from_text_to_listing() {
    let folder = yard_a("yard-a");
    let dir = word(&folder);
    assert_eq!(galz(&["judge", dir]), success("cleared\n"));
    let explained = galz(&["judge", "--explain", dir]);
    assert_eq!(explained.status, 0);
    assert!(explained.out.starts_with("cleared\nevery step"));
    assert_eq!(galz(&["resolve", dir]), success(LISTING));
    assert_eq!(
        galz(&["rounds", dir]).out,
        "refused 41 0\n",
        "no MOVES is written without -o"
    );
    let moves = folder.join("MOVES");
    assert_eq!(
        galz(&["resolve", dir, "-o", word(&moves)]),
        success(LISTING)
    );
    assert_eq!(fs::read(&moves).unwrap().len(), 512);
    let sheet = folder.join("ROUNDS");
    assert_eq!(galz(&["rounds", dir, "-o", word(&sheet)]), success(LISTING));
    let rounds = writing::sheet(&fs::read(&sheet).unwrap());
    assert_eq!(rounds, [1, 2, 1, 2, 3, 3]);
    let plan = folder.join("DRAWN");
    let drawn = galz(&["draw", dir, "-o", word(&plan)]);
    assert_eq!(drawn, success("steps 2\n0 0 3 255\n1 0 3 255\n"));
    let bytes = fs::read(folder.join("PLAN")).unwrap();
    assert_eq!(fs::read(&plan).unwrap(), bytes, "the plan comes back");
}

#[test]
fn a_drawn_plan_shows_its_follow_lists() {
    let folder = folder("drawn");
    let dir = word(&folder);
    let text = examples().join("cold-store.txt");
    galz(&["pack", word(&text), dir]);
    let moves = folder.join("MOVES");
    galz(&["resolve", dir, "-o", word(&moves)]);
    let drawn = galz(&["draw", dir]);
    assert_eq!(drawn.status, 0);
    assert!(drawn.out.contains("\n3 10 13 255 3 2 5\n"), "{}", drawn.out);
}

#[test]
fn pack_takes_away_a_plan_of_before() {
    let folder = yard_a("packed-again");
    let text = folder.join("other.txt");
    fs::write(&text, "zone 0 hall 0\nmoves\n").unwrap();
    let packed = galz(&["pack", word(&text), word(&folder)]);
    assert_eq!(packed.status, 0);
    let plan = folder.join("PLAN");
    let removed = format!("removed {}\n", plan.display());
    assert!(packed.out.contains(&removed), "{}", packed.out);
    assert!(!plan.exists() && folder.join("MOVES").exists());
}

#[test]
fn a_missing_file_counts_as_length_0() {
    let empty = folder("empty");
    for (command, kept, printed) in [
        ("judge", "", "refused 11 0\n"),
        ("resolve", "MAP", "refused 21 0\n"),
        ("judge", "MAP PLACING", "refused 31 0\n"),
        ("draw", "MAP PLACING", "refused 41 0\n"),
        ("rounds", "MAP PLACING PLAN", "refused 41 0\n"),
    ] {
        let full = yard_a("full");
        let _ = fs::remove_dir_all(&empty);
        fs::create_dir(&empty).unwrap();
        for name in kept.split_whitespace() {
            fs::copy(full.join(name), empty.join(name)).unwrap();
        }
        let refused = galz(&[command, word(&empty)]);
        assert_eq!((refused.status, refused.out.as_str()), (1, printed));
    }
}

#[test]
fn a_refusal_writes_no_file() {
    let folder = yard_a("no-file");
    let answer = folder.join("ANSWER");
    let words = ["resolve", word(&folder), "-o", word(&answer), "--room", "8"];
    assert_eq!(galz(&words).status, 1);
    let page = folder.join("run.html");
    fs::remove_file(folder.join("PLAN")).unwrap();
    let refused = galz(&["picture", word(&folder), "-o", word(&page)]);
    assert_eq!(refused.status, 1);
    assert_eq!(refused.out, "refused 31 0\nPLAN is missing or empty\n");
    fs::write(folder.join("MAP"), [1; 512]).unwrap();
    let yard = folder.join("yard.svg");
    let refused = galz(&["picture", word(&folder), "-o", word(&yard)]);
    assert_eq!(refused.status, 1);
    assert!(refused.out.starts_with("refused 12 0\nMAP, block 0: "));
    let shown = galz(&["unpack", word(&folder)]);
    assert_eq!((shown.status, shown.out.as_str()), (1, ""));
    assert!(shown.err.contains("can't be shown as text: MAP, block 0: "));
    assert!(!answer.exists() && !page.exists() && !yard.exists());
}

#[test]
fn help_is_printed_for_each_command() {
    let all = galz(&["--help"]);
    assert_eq!((all.status, all.err.as_str()), (0, ""));
    assert_eq!(galz(&["help"]), all);
    for command in COMMANDS {
        assert!(all.out.contains(&format!("galz {command} ")), "{command}");
        let help = galz(&[command, "--help"]);
        assert_eq!((help.status, help.err.as_str()), (0, ""));
        assert!(help.out.starts_with(&format!("galz {command} ")));
        assert_eq!(galz(&[command, "DIR", "-h"]), help);
    }
}

#[test]
fn misuse_has_status_2() {
    let folder = yard_a("misuse");
    let dir = word(&folder);
    let text = word(&folder).to_string() + "/none.txt";
    for words in [
        &[][..],
        &["judgement"],
        &["judge"],
        &["judge", dir, dir],
        &["judge", "no-such-folder"],
        &["judge", dir, "-o", "FILE"],
        &["judge", dir, "--room", "5"],
        &["judge", dir, "--loud"],
        &["resolve", dir, "-o"],
        &["resolve", dir, "--room", "many"],
        &["resolve", dir, "--room", "-1"],
        &["resolve", dir, "-o", "no-such-folder/MOVES"],
        &["unpack"],
        &["unpack", dir, "--explain"],
        &["pack", dir],
        &["pack", &text, dir],
        &["pack", dir, dir],
        &["picture", dir],
        &["picture", dir, "-o", "yard.png"],
        &["picture", dir, "-o", "no-such-folder/yard.svg"],
    ] {
        let printed = galz(words);
        assert_eq!(printed.status, 2, "{words:?}: {printed:?}");
        assert_eq!(printed.out, "", "{words:?}");
        assert!(printed.err.starts_with("galz: "), "{words:?}");
    }
}

#[test]
fn a_text_that_is_not_utf_8_is_told_with_its_place() {
    let folder = folder("not-utf-8");
    let text = folder.join("yard.txt");
    fs::write(&text, b"zone 0 hall 0\n# \xc3\xa9 \xff\n").unwrap();
    let printed = galz(&["pack", word(&text), word(&folder)]);
    assert_eq!(printed.status, 2);
    let expected = format!("galz: {}:2:5: expected text in UTF-8\n", text.display());
    assert_eq!(printed.err, expected);
}

/// A refused plan is still shown, so that it can be mended.
#[test]
fn a_refused_plan_is_unpacked() {
    let text = fs::read_to_string(examples().join("blocked.txt")).unwrap();
    let folder = folder_of("blocked", &files(&text));
    let shown = galz(&["unpack", word(&folder)]);
    assert_eq!(shown.status, 0);
    assert!(text.ends_with(&shown.out), "{}", shown.out);
}
