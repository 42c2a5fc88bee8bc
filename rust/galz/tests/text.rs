//! The text form: there and back, and what is said of bad text.
#![forbid(unsafe_code)]

mod help;

use cases::{Generator, Service};
use galz::text;
use galz::yard::{Files, Yard};
use help::{each_example, files, folder, galz};
use writing::{Random, Walk};

/// Checks that files come back from their text, and the text from the files.
fn there_and_back(files: &Files, yard: &Yard) {
    let written = text::write(yard);
    let read = text::read(&written).unwrap_or_else(|error| panic!("{error}\n{written}"));
    assert_eq!(&read, yard, "{written}");
    assert_eq!(&read.files(), files, "{written}");
    let again = Yard::read(&read.files()).unwrap();
    assert_eq!(text::write(&again), written);
}

/// Generated files, good and faulty: every accepted one can be shown, and
/// each one that is shown comes back byte for byte.
#[test]
fn generated_files_come_back() {
    let mut generator = Generator::new(5);
    let (mut accepted, mut faulty, mut unshown) = (0, 0, 0);
    for index in 0..6000 {
        let case = generator.next_case();
        let mut files = Files {
            map: case.map,
            placing: case.placing,
            ..Files::default()
        };
        let answer = if case.service.takes_plan() {
            files.plan = case.input;
            library::judge(&files.map, &files.placing, &files.plan)
        } else {
            files.moves = case.input;
            let room = &mut vec![0; 65_536];
            library::draw(&files.map, &files.placing, &files.moves, room)
        };
        match (Yard::read(&files), answer.number) {
            (Ok(yard), 0) => {
                there_and_back(&files, &yard);
                accepted += 1;
            }
            (Ok(yard), _) => {
                there_and_back(&files, &yard);
                faulty += 1;
            }
            (Err(fault), number) => {
                assert_ne!(number, 0, "case {index}: {}", fault.words);
                unshown += 1;
            }
        }
    }
    assert!(accepted > 2000, "{accepted} accepted");
    assert!(faulty > 500, "{faulty} faulty ones shown");
    assert!(unshown > 200, "{unshown} not shown");
}

/// Random yards with a plan and a move list at once.
#[test]
fn random_yards_with_both_come_back() {
    let mut random = Random::new(3);
    let mut follow_lists = 0;
    for _ in 0..400 {
        let points = random.between(1, 128);
        let most = random.between(1, 12);
        let mut yard = writing::Yard::random(&mut random, points, most);
        let carts = random.between(0, points.min(64));
        yard.place_at_random(&mut random, carts);
        let mut walk = Walk::new(&yard);
        let (mut steps, mut moves) = (Vec::new(), Vec::new());
        for _ in 0..random.below(200) {
            if let Some(next) = walk.find(&mut random) {
                steps.extend(walk.make(next));
                moves.push(next);
            }
        }
        follow_lists += steps.iter().filter(|step| !step.follow.is_empty()).count();
        for (cart, &goal) in yard.carts.iter_mut().zip(walk.points()) {
            cart.1 = goal;
        }
        let files = Files {
            map: yard.map(),
            placing: yard.placing(),
            plan: writing::plan(&steps),
            moves: writing::move_list(&moves),
        };
        assert_eq!(
            library::judge(&files.map, &files.placing, &files.plan).number,
            0
        );
        let shown = Yard::read(&files).unwrap();
        assert_eq!(shown.plan.as_ref().map(Vec::len), Some(steps.len()));
        for (shown, step) in shown.plan.iter().flatten().zip(&steps) {
            assert_eq!(shown.follow, step.follow);
        }
        there_and_back(&files, &shown);
    }
    assert!(follow_lists > 100, "{follow_lists} follow lists");
}

/// A case of the service whose files are all there.
#[test]
fn pack_and_unpack_of_the_program_are_inverse() {
    let mut generator = Generator::for_services(8, &[Service::Judge]);
    let mut tried = 0;
    while tried < 12 {
        let case = generator.next_case();
        let files = Files {
            map: case.map,
            placing: case.placing,
            plan: case.input,
            moves: Vec::new(),
        };
        if Yard::read(&files).is_err() {
            continue;
        }
        tried += 1;
        let first = help::folder_of(&format!("unpacked-{tried}"), &files);
        let second = folder(&format!("packed-{tried}"));
        let unpacked = galz(&["unpack", first.to_str().unwrap()]);
        assert_eq!((unpacked.status, unpacked.err.as_str()), (0, ""));
        let text = second.join("yard.txt");
        std::fs::write(&text, &unpacked.out).unwrap();
        let packed = galz(&["pack", text.to_str().unwrap(), second.to_str().unwrap()]);
        assert_eq!((packed.status, packed.err.as_str()), (0, ""));
        assert_eq!(galz::folder::read(&second).unwrap(), files);
        let again = galz(&["unpack", second.to_str().unwrap()]);
        assert_eq!(again.out, unpacked.out);
    }
}

/// The examples are canonical but for their comments, and the first of them
/// is document 01's.
#[test]
fn the_examples_are_canonical() {
    let examples = each_example();
    assert!(examples.len() >= 4, "Yard A and three more");
    for (name, text) in examples {
        let kept = text.lines().filter(|line| !line.starts_with('#'));
        let plain = kept.map(|line| format!("{line}\n")).collect::<String>();
        let files = files(&text);
        let yard = Yard::read(&files).unwrap();
        assert_eq!(text::write(&yard), plain, "{name}");
        there_and_back(&files, &yard);
        let answer = library::judge(&files.map, &files.placing, &files.plan);
        let expected = if name == "blocked" { 38 } else { 0 };
        assert_eq!(answer.number, expected, "{name}");
    }
}

/// Yard A's payloads, byte by byte.
#[test]
fn yard_a_has_document_01_s_bytes() {
    let examples = each_example();
    let (_, text) = examples.iter().find(|(name, _)| name == "yard-a").unwrap();
    let files = files(text);
    let map = [
        5, 2, 1, 3, 0, 1, 2, 2, 2, 3, 4, 0, 4, 0, 1, 0, 3, 1, 2, 3, 4,
    ];
    assert_eq!(writing::payload(&files.map), map);
    assert_eq!(writing::payload(&files.placing), [2, 1, 4, 2, 3]);
    let plan = [0, 2, 0, 0, 3, 255, 1, 0, 3, 255];
    assert_eq!(writing::payload(&files.plan), plan);
    assert!(files.moves.is_empty());
}

#[test]
fn text_may_be_loose() {
    let loose = "\u{feff}\tzone 0 hall 1 0   # listed from 1\r\n\n  # a comment\ncart 0 start 0 goal 1\r\nplan\nzone 1 hall 2\ntrack 2 0\ntrack 0 2\ntrack 0 1\nstep cart 0 from 0 to 2 behind none\n";
    let plain = "zone 0 hall 1 0\nzone 1 hall 2\ntrack 0 2\ncart 0 start 0 goal 1\nplan\nstep cart 0 from 0 to 2\n";
    let yard = text::read(loose).unwrap();
    assert_eq!(text::write(&yard), plain);
    assert_eq!(yard.files(), files(plain));
}

/// What is said of a text that can't be read.
fn error(text: &str) -> String {
    match text::read(text) {
        Ok(yard) => panic!("{text:?} was read as {yard:?}"),
        Err(error) => error.to_string(),
    }
}

#[test]
fn bad_text_is_told_with_line_and_column() {
    const STARTS: &str =
        "`points`, `zone`, `tracks`, `track`, `cart`, `plan`, `step`, `moves` or `move`";
    let zone = "zone 0 hall 0 1\n";
    for (text, expected) in [
        ("", "1:1: expected a `zone`, found the end of the text".to_string()),
        ("# nothing\n\n", "3:1: expected a `zone`, found the end of the text".to_string()),
        ("zones 1", format!("1:1: expected {STARTS}, found `zones`")),
        ("  7", format!("1:3: expected {STARTS}, found `7`")),
        ("zone", "1:5: expected 0, the number of the next zone, found the end of the line".to_string()),
        ("zone 1 hall 0", "1:6: expected 0, the number of the next zone, found `1`".to_string()),
        ("zone 0 room 0", "1:8: expected `stack`, `hall`, `clique` or `ring`, found `room`".to_string()),
        ("zone 0 hall 0 x1", "1:15: expected a point of the zone, a number from 0 to 255, found `x1`".to_string()),
        ("zone 0 hall 0 256 # far", "1:15: expected a point of the zone, a number from 0 to 255, found `256`".to_string()),
        ("zone 0 hall 0 +1", "1:15: expected a point of the zone, a number from 0 to 255, found `+1`".to_string()),
        ("zone 0 hall 0 -1", "1:15: expected a point of the zone, a number from 0 to 255, found `-1`".to_string()),
        ("zone 0 hall 0\nzone 0 hall 1", "2:6: expected 1, the number of the next zone, found `0`".to_string()),
        ("points", "1:7: expected how many points there are, a number from 0 to 255, found the end of the line".to_string()),
        ("points 3\npoints 3", "2:1: expected `points` only once, found `points`".to_string()),
        ("points 3 4", "1:10: expected the end of the line, found `4`".to_string()),
        ("tracks", "1:7: expected `listed`, found the end of the line".to_string()),
        ("tracks listed\ntracks listed", "2:1: expected `tracks` only once, found `tracks`".to_string()),
        ("track 0", "1:8: expected the point at its other end, a number from 0 to 255, found the end of the line".to_string()),
        ("track 0-1", "1:7: expected the point at one end of the track, a number from 0 to 255, found `0-1`".to_string()),
        ("track 0 1 2", "1:11: expected the end of the line, found `2`".to_string()),
        ("cart 1 start 0 goal 1", "1:6: expected 0, the number of the next cart, found `1`".to_string()),
        ("cart 0 from 0 goal 1", "1:8: expected `start`, found `from`".to_string()),
        ("cart 0 start 0", "1:15: expected `goal`, found the end of the line".to_string()),
        ("cart 0 start 0 goal", "1:20: expected the point where it is to end, a number from 0 to 255, found the end of the line".to_string()),
        ("step cart 0 from 0 to 1", "1:1: expected `plan` on a line before the first step, found `step`".to_string()),
        ("plan\nplan", "2:1: expected `plan` only once, found `plan`".to_string()),
        ("plan 2", "1:6: expected the end of the line, found `2`".to_string()),
        ("plan\nstep 0 from 0 to 1", "2:6: expected `cart`, found `0`".to_string()),
        ("plan\nstep cart 0 to 1", "2:13: expected `from`, found `to`".to_string()),
        ("plan\nstep cart 0 from 0 1", "2:20: expected `to`, found `1`".to_string()),
        ("plan\nstep cart 0 from 0 to 1 behind", "2:31: expected the cart behind, a number from 0 to 255, or `none`, found the end of the line".to_string()),
        ("plan\nstep cart 0 from 0 to 1 behind 2 3", "2:34: expected `follow` or the end of the line, found `3`".to_string()),
        ("plan\nstep cart 0 from 0 to 1 before 2", "2:25: expected `behind`, `follow` or the end of the line, found `before`".to_string()),
        ("plan\nstep cart 0 from 0 to 1 follow", "2:31: expected a cart of the follow list, a number from 0 to 255, found the end of the line".to_string()),
        ("plan\nstep cart 0 from 0 to 1 follow 2 none", "2:34: expected a cart of the follow list, a number from 0 to 255, found `none`".to_string()),
        ("move cart 0 from 0 to 1", "1:1: expected `moves` on a line before the first move, found `move`".to_string()),
        ("moves\nmoves", "2:1: expected `moves` only once, found `moves`".to_string()),
        ("moves\nmove cart 0 from 0 to 1 behind 2", "2:25: expected the end of the line, found `behind`".to_string()),
    ] {
        assert_eq!(error(text), expected, "{text:?}");
        if !text.is_empty() && !text.starts_with('#') && !text.starts_with("zone") {
            // The same fault one line further down.
            let (line, rest) = expected.split_once(':').unwrap();
            let line: usize = line.parse().unwrap();
            assert_eq!(error(&format!("{zone}{text}")), format!("{}:{rest}", line + 1));
        }
    }
    // Columns count characters, not bytes.
    assert_eq!(
        error("zone 0 hallé 0"),
        "1:8: expected `stack`, `hall`, `clique` or `ring`, found `hallé`"
    );
    assert_eq!(
        error("zone 0 hall 0 é 1"),
        "1:15: expected a point of the zone, a number from 0 to 255, found `é`"
    );
}

#[test]
fn counts_that_no_field_holds_are_told() {
    let zones: String = (0..256).map(|zone| format!("zone {zone} hall\n")).collect();
    assert_eq!(
        error(&zones),
        "256:1: expected no more than 255 zones, found `zone`"
    );
    let carts: String = (0..256)
        .map(|cart| format!("cart {cart} start 0 goal 0\n"))
        .collect();
    assert_eq!(
        error(&carts),
        "256:1: expected no more than 255 carts, found `cart`"
    );
    let moves = "moves\n".to_string() + &"move cart 0 from 0 to 1\n".repeat(65_536);
    assert_eq!(
        error(&moves),
        "65537:1: expected no more than 65535 moves, found `move`"
    );
    let points = "zone 0 hall".to_string() + &" 0".repeat(256);
    assert_eq!(
        error(&points),
        "1:523: expected the end of the line after 255 numbers, found `0`"
    );
    let two = "zone 0 hall".to_string() + &" 0".repeat(200) + "\nzone 1 hall" + &" 0".repeat(56);
    assert_eq!(
        error(&two),
        "3:1: expected no more than 255 points in the zones, found the end of the text"
    );
}

#[test]
fn the_program_names_the_text() {
    let folder = folder("bad-text");
    let text = folder.join("bad.txt");
    std::fs::write(&text, "zone 0 hall 0 1\nzone 1 rong 2 3 4\n").unwrap();
    let text = text.to_str().unwrap();
    let printed = galz(&["pack", text, folder.join("yard").to_str().unwrap()]);
    assert_eq!(printed.status, 2);
    assert_eq!(
        printed.err,
        format!("galz: {text}:2:8: expected `stack`, `hall`, `clique` or `ring`, found `rong`\n")
    );
    assert_eq!(printed.out, "");
    assert!(!folder.join("yard").exists(), "nothing is written");
}
