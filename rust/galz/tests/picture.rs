//! Pictures and the page, as far as they can be read without a browser.
#![forbid(unsafe_code)]

mod help;

use std::fs;

use galz::map::Map;
use galz::picture::{self, contrast, robot_colour, Layout, INK, KINDS, PAPER};
use galz::service::{listing, Service, ROOM};
use galz::yard::Files;
use help::{each_example, files, folder_of, galz};
use writing::{Random, Yard};

/// The start tags and end tags of a text, checked against each other; gives
/// how many elements there are.
fn elements(text: &str) -> usize {
    let mut open = Vec::new();
    let mut count = 0;
    for part in text.split('<').skip(1) {
        let (tag, _) = part.split_once('>').expect("a tag ends");
        let name = tag.split(|c: char| c.is_whitespace() || c == '/').next();
        match tag.strip_prefix('/') {
            Some(name) => assert_eq!(open.pop(), Some(name), "{tag}"),
            None => {
                count += 1;
                if !tag.ends_with('/') {
                    open.extend(name);
                }
            }
        }
    }
    assert!(open.is_empty(), "{open:?} are open");
    count
}

#[test]
fn a_picture_has_each_zone_point_cart_and_goal() {
    for (name, text) in each_example() {
        let files = files(&text);
        let yard = galz::yard::Yard::read(&files).unwrap();
        let folder = folder_of(&format!("picture-{name}"), &files);
        let path = folder.join("yard.svg");
        let words = ["picture", folder.to_str().unwrap(), "-o"];
        let drawn = galz(&[&words[..], &[path.to_str().unwrap()]].concat());
        assert_eq!(drawn.status, 0, "{drawn:?}");
        let svg = fs::read_to_string(&path).unwrap();
        assert!(elements(&svg) > 10);
        let carts = yard.placing.robots.len();
        for (word, number) in [
            ("zone", yard.map.zones.len()),
            ("point", yard.map.vertices.into()),
            ("cart", carts),
            ("goal", carts),
        ] {
            assert_eq!(
                svg.matches(&format!("class=\"{word}\"")).count(),
                number,
                "{word}"
            );
            for index in 0..number {
                assert!(svg.contains(&format!("id=\"{word}-{index}\"")));
            }
        }
        for (zone, listed) in yard.map.zones.iter().enumerate() {
            assert!(svg.contains(&format!(">{} {zone}</text>", listed.kind.word())));
        }
        for (cart, (start, _)) in yard.placing.robots.iter().enumerate() {
            assert!(svg.contains(&format!("id=\"cart-{cart}\" data-point=\"{start}\"")));
        }
    }
}

/// On generated yards, zones lie apart and inside the picture, and points lie
/// apart and inside their zones.
#[test]
fn nothing_lies_over_another() {
    let mut random = Random::new(17);
    for _ in 0..12 {
        let points = random.between(1, 128);
        let most = random.between(1, 40);
        let yard = Yard::random(&mut random, points, most);
        let map = Map::read(&yard.map()).accepted().unwrap();
        let layout = Layout::new(&map);
        for (zone, frame) in layout.frames.iter().enumerate() {
            assert!(frame.x >= 20.0 && frame.x + frame.width <= layout.width - 20.0);
            assert!(frame.y >= 20.0 && frame.y + frame.height <= layout.height - 20.0);
            for other in &layout.frames[..zone] {
                let is_beside =
                    frame.x >= other.x + other.width || other.x >= frame.x + frame.width;
                let is_below =
                    frame.y >= other.y + other.height || other.y >= frame.y + frame.height;
                assert!(is_beside || is_below);
            }
            for &vertex in &map.zones[zone].vertices {
                let (x, y) = layout.spots[usize::from(vertex)];
                assert!(x - frame.x >= 45.0 && frame.x + frame.width - x >= 45.0);
                assert!(y - frame.y >= 70.0 && frame.y + frame.height - y >= 40.0);
            }
        }
        for (vertex, &(x, y)) in layout.spots.iter().enumerate() {
            for &(other_x, other_y) in &layout.spots[..vertex] {
                assert!((x - other_x).hypot(y - other_y) >= 80.0);
            }
        }
    }
}

/// Text has a contrast of at least 4.5, which WCAG 2 asks for.
#[test]
fn text_can_be_read_on_its_colour() {
    for (kind, fill, name) in KINDS {
        assert!(contrast(name, fill) >= 4.5, "the name of a {}", kind.word());
        assert!(contrast(INK, fill) >= 4.5, "a point of a {}", kind.word());
    }
    for robot in 0..64 {
        assert!(contrast(robot_colour(robot), PAPER) >= 4.5, "cart {robot}");
    }
    assert!((contrast(PAPER, galz::picture::Rgb(0, 0, 0)) - 21.0).abs() < 1e-9);
}

/// The colours of the page's style, of text and what it stands on.
#[test]
fn the_page_can_be_read() {
    let page = include_str!("../src/picture/page.html");
    for (text, ground) in [
        ("#22262b", "#ffffff"),
        ("#22262b", "#eef1f4"),
        ("#22262b", "#dde3e9"),
        ("#5c6570", "#eef1f4"),
        ("#ffffff", "#1c4e86"),
        ("#ffffff", "#163e6b"),
        ("#4a525b", "#ffffff"),
    ] {
        assert!(page.contains(text) && page.contains(ground));
        let colour = |hex: &str| {
            let part = |at: usize| u8::from_str_radix(&hex[at..at + 2], 16).unwrap();
            picture::Rgb(part(1), part(3), part(5))
        };
        assert!(
            contrast(colour(text), colour(ground)) >= 4.5,
            "{text} on {ground}"
        );
    }
}

#[test]
fn a_page_holds_the_moves_and_rounds_and_needs_nothing_else() {
    for (name, text) in each_example() {
        let mut files = files(&text);
        let answer = Service::Resolve.call(&files, ROOM);
        let page = picture::page("<b>&\"yard\"", &files);
        if answer.number != 0 {
            let (service, refused) = page.expect_err("a refused plan has no page");
            assert_eq!((service, refused.number), (Service::Resolve, answer.number));
            continue;
        }
        let page = page.ok().expect("a cleared plan has a page");
        assert!(page.contains("<h1>The run of &lt;b&gt;&amp;&quot;yard&quot;</h1>"));
        assert!(!page.contains("<b>"));
        assert!(!page.contains("<!--"), "each part is put in");
        let links = page.replace("xmlns=\"http://www.w3.org/2000/svg\"", "");
        for word in ["http:", "https:", "src=", "href=", "url(", "@import"] {
            assert!(!links.contains(word), "{word}");
        }
        files.moves = answer.bytes;
        let listed = listing(&files).ok().expect("resolved moves have rounds");
        let moves = listed.lines().skip(1);
        let moves: Vec<String> = moves
            .map(|l| format!("[{}]", l.replace(' ', ",")))
            .collect();
        let expected = format!("\"moves\":[{}]}}", moves.join(","));
        assert!(page.contains(&expected), "{name}");
        let with_moves = picture::page("<b>&\"yard\"", &files).ok();
        assert_eq!(with_moves, Some(page), "MOVES or PLAN, the same page");
    }
}

/// MOVES goes before PLAN, and illegal moves are refused.
#[test]
fn a_page_of_illegal_moves_is_refused() {
    let mut files: Files = files(&each_example().pop().unwrap().1);
    files.moves = writing::move_list(&[[0, 0, 0]]);
    let (service, refused) = picture::page("yard", &files).err().unwrap();
    assert_eq!(
        (service, refused.number, refused.place),
        (Service::Rounds, 47, 0)
    );
    assert!(picture::svg("yard", &files).is_ok());
}
