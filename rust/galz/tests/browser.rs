//! The page in a real browser: Chromium without a window, driven over its
//! debugging pipe with keys and clicks. Without Chromium the tests are
//! ignored.
#![forbid(unsafe_code)]

mod help;

use std::fs;
use std::io::{BufRead, BufReader, Write};
use std::path::{Path, PathBuf};
use std::process::{Child, ChildStdin, Command, Stdio};
use std::sync::mpsc::{channel, Receiver};
use std::thread;
use std::time::{Duration, Instant};

use help::{examples, folder, galz};

const PATIENCE: Duration = Duration::from_secs(30);

/// A browser that shows one page.
struct Browser {
    child: Child,
    input: ChildStdin,
    answers: Receiver<String>,
    session: String,
    calls: usize,
}

impl Browser {
    /// Shows a page.
    fn open(profile: &Path, page: &str) -> Browser {
        // The pipe's two ends are to be descriptors 3 and 4.
        let script = "exec chromium --headless --no-sandbox --disable-gpu --no-first-run \
            --disable-background-networking --window-size=1280,900 \
            --remote-debugging-pipe --user-data-dir=\"$0\" about:blank \
            3<&0 4>&1 >/dev/null 2>&1 </dev/null";
        let mut child = Command::new("sh")
            .args(["-c", script])
            .arg(profile)
            .stdin(Stdio::piped())
            .stdout(Stdio::piped())
            .spawn()
            .expect("a shell runs");
        let input = child.stdin.take().expect("the pipe is there");
        let output = child.stdout.take().expect("the pipe is there");
        let (sender, answers) = channel();
        thread::spawn(move || {
            for message in BufReader::new(output).split(0) {
                let Ok(message) = message else { break };
                let message = String::from_utf8_lossy(&message).into_owned();
                if sender.send(message).is_err() {
                    break;
                }
            }
        });
        let mut browser = Browser {
            child,
            input,
            answers,
            session: String::new(),
            calls: 0,
        };
        let targets = browser.call("Target.getTargets", "{}");
        let page_target = targets
            .split("{\"")
            .find(|target| target.contains("\"type\":\"page\""))
            .expect("there is a page");
        let target = text_of(page_target, "targetId\":\"");
        let attach = format!("{{\"targetId\":\"{target}\",\"flatten\":true}}");
        let attached = browser.call("Target.attachToTarget", &attach);
        browser.session = text_of(&attached, "\"sessionId\":\"");
        browser.call("Page.enable", "{}");
        browser.show(page);
        browser
    }

    /// Calls a method of the browser, and gives its answer.
    fn call(&mut self, method: &str, parameters: &str) -> String {
        self.calls += 1;
        let session = match &self.session[..] {
            "" => String::new(),
            session => format!(",\"sessionId\":\"{session}\""),
        };
        let message = format!(
            "{{\"id\":{},\"method\":\"{method}\",\"params\":{parameters}{session}}}\0",
            self.calls
        );
        self.input
            .write_all(message.as_bytes())
            .expect("the browser listens");
        let start = format!("{{\"id\":{},", self.calls);
        loop {
            let answer = self.answers.recv_timeout(PATIENCE);
            let answer = answer.unwrap_or_else(|_| panic!("no answer to {method}"));
            if answer.starts_with(&start) {
                assert!(!answer.contains("\"error\""), "{method}: {answer}");
                return answer;
            }
        }
    }

    /// Goes to an address and waits for its script.
    fn show(&mut self, page: &str) {
        self.call("Page.navigate", &format!("{{\"url\":\"{page}\"}}"));
        self.wait(
            "document.readyState + String(document.body?.dataset.round !== undefined)",
            |s| s == "completetrue",
        );
    }

    /// The text that an expression gives.
    fn text(&mut self, expression: &str) -> String {
        let expression = expression.replace('\\', "\\\\").replace('"', "\\\"");
        let parameters = format!("{{\"expression\":\"{expression}\",\"returnByValue\":true}}");
        let answer = self.call("Runtime.evaluate", &parameters);
        assert!(!answer.contains("exceptionDetails"), "{answer}");
        if answer.contains("\"type\":\"undefined\"") {
            return String::new();
        }
        text_of(&answer, "\"value\":\"")
    }

    /// Waits until an expression gives what is wanted.
    fn wait(&mut self, expression: &str, is_good: impl Fn(&str) -> bool) -> String {
        let start = Instant::now();
        loop {
            let text = self.text(expression);
            if is_good(&text) {
                return text;
            }
            assert!(start.elapsed() < PATIENCE, "{expression} stays {text}");
            thread::sleep(Duration::from_millis(20));
        }
    }

    /// Presses and lets go of a key.
    fn press(&mut self, key: &str, code: &str, number: u8) {
        let text = if key == " " { ",\"text\":\" \"" } else { "" };
        for (kind, text) in [("keyDown", text), ("keyUp", "")] {
            let parameters = format!(
                "{{\"type\":\"{kind}\",\"key\":\"{key}\",\"code\":\"{code}\",\"windowsVirtualKeyCode\":{number}{text}}}"
            );
            self.call("Input.dispatchKeyEvent", &parameters);
        }
    }

    fn press_space(&mut self) {
        self.press(" ", "Space", 32);
    }

    fn press_left(&mut self) {
        self.press("ArrowLeft", "ArrowLeft", 37);
    }

    fn press_right(&mut self) {
        self.press("ArrowRight", "ArrowRight", 39);
    }

    /// Round, whether it plays, and the point of each cart.
    fn state(&mut self) -> String {
        self.text(STATE)
    }
}

impl Drop for Browser {
    fn drop(&mut self) {
        let close = "{\"id\":1000000,\"method\":\"Browser.close\",\"params\":{}}\0";
        let asked = self.input.write_all(close.as_bytes());
        let start = Instant::now();
        while asked.is_ok() && start.elapsed() < Duration::from_secs(5) {
            if let Ok(Some(_)) = self.child.try_wait() {
                return;
            }
            thread::sleep(Duration::from_millis(20));
        }
        let _ = self.child.kill();
        let _ = self.child.wait();
    }
}

const STATE: &str = "[document.body.dataset.round, document.body.dataset.playing, \
    [...document.querySelectorAll('.cart')].map(cart => cart.dataset.point).join(',')].join(' ')";

/// How far carts are drawn from their points, in pixels of the screen.
const OFF: &str = "String(Math.max(...[...document.querySelectorAll('.cart')].map(cart => { \
    const middle = part => { const r = part.getBoundingClientRect(); \
    return [r.x + r.width / 2, r.y + r.height / 2]; }; \
    const [a, b] = middle(cart.querySelector('circle')); \
    const [c, d] = middle(document.getElementById('point-' + cart.dataset.point)); \
    return Math.hypot(a - c, b - d); })) < 1)";

/// The text after a mark, up to a quotation mark.
fn text_of(answer: &str, mark: &str) -> String {
    let (_, rest) = answer
        .split_once(mark)
        .unwrap_or_else(|| panic!("no {mark} in {answer}"));
    rest.split('"').next().unwrap_or("").to_string()
}

/// An example's page and what it resolves to.
fn page_of(example: &str) -> (PathBuf, String, String) {
    let folder = folder(&format!("browser-{example}"));
    let dir = folder.to_str().expect("a plain path");
    let text = examples().join(format!("{example}.txt"));
    assert_eq!(galz(&["pack", text.to_str().unwrap(), dir]).status, 0);
    let page = folder.join("run.html");
    assert_eq!(
        galz(&["picture", dir, "-o", page.to_str().unwrap()]).status,
        0
    );
    let listed = galz(&["resolve", dir]).out;
    let address = format!("file://{}", fs::canonicalize(&page).unwrap().display());
    (folder.join("profile"), address, listed)
}

#[test]
#[cfg_attr(not(chromium), ignore = "there is no chromium")]
fn yard_a_plays_by_keyboard_and_by_buttons() {
    let (profile, page, _) = page_of("yard-a");
    let mut browser = Browser::open(&profile, &page);
    const STATES: [&str; 4] = ["0 no 1,2", "1 no 0,1", "2 no 3,0", "3 no 4,3"];
    assert_eq!(browser.state(), STATES[0]);
    for state in &STATES[1..] {
        browser.press_right();
        assert_eq!(browser.state(), *state);
        browser.wait(OFF, |text| text == "true");
    }
    browser.press_right();
    assert_eq!(browser.state(), STATES[3], "the last round stays");
    browser.press_left();
    assert_eq!(browser.state(), STATES[2]);
    browser.press("Home", "Home", 36);
    assert_eq!(browser.state(), STATES[0]);
    browser.press_left();
    assert_eq!(browser.state(), STATES[0]);
    browser.press("End", "End", 35);
    assert_eq!(browser.state(), STATES[3]);

    // Space plays from the start again, through to the end.
    browser.press_space();
    assert!(browser.state().contains(" yes "));
    browser.wait(STATE, |state| state.starts_with("1 yes "));
    browser.wait(STATE, |state| state == STATES[3]);
    browser.wait(OFF, |text| text == "true");
    // Space stops a run.
    browser.press_space();
    browser.wait(STATE, |state| state == "1 yes 0,1");
    browser.press_space();
    assert_eq!(browser.state(), STATES[1]);

    // Keys on the slider and on a button do one thing each.
    browser.text("document.getElementById('slider').focus()");
    browser.press_right();
    assert_eq!(browser.state(), STATES[2]);
    assert_eq!(browser.text("document.getElementById('slider').value"), "2");
    browser.text("document.getElementById('back').focus()");
    browser.press_space();
    assert_eq!(browser.state(), STATES[1]);
    browser.text("document.getElementById('step').click()");
    assert_eq!(browser.state(), STATES[2]);
    browser.text("slider.value = 3; slider.dispatchEvent(new Event('input')); ''");
    assert_eq!(browser.state(), STATES[3]);
    assert_eq!(
        browser.text("document.getElementById('round').textContent"),
        "round 3 of 3"
    );
    let moves =
        "[...document.querySelectorAll('#moves li')].map(item => item.textContent).join('; ')";
    assert_eq!(
        browser.text(moves),
        "cart 0: point 3 to 4, inside hall 1; cart 1: point 0 to 3, from stack 0 to hall 1"
    );
    assert_eq!(
        browser.text("String(document.querySelectorAll('.goal.reached').length)"),
        "2"
    );
    browser.text("document.getElementById('play').focus()");
    browser.press_space();
    assert!(browser.state().contains(" yes "), "the button plays once");
    browser.press("Home", "Home", 36);
    assert_eq!(browser.state(), STATES[0], "a key stops the run");

    // A button that can no longer be pressed doesn't swallow the keys.
    browser.text("document.getElementById('step').focus()");
    for state in &STATES[1..] {
        browser.press_space();
        assert_eq!(browser.state(), *state);
    }
    assert_eq!(
        browser.text("String(document.getElementById('step').disabled)"),
        "true"
    );
    browser.press_left();
    assert_eq!(browser.state(), STATES[2]);
}

/// A yard without carts and moves has a page too.
#[test]
#[cfg_attr(not(chromium), ignore = "there is no chromium")]
fn a_page_without_moves_stays_at_its_start() {
    let folder = folder("browser-empty");
    let dir = folder.to_str().expect("a plain path");
    let text = folder.join("yard.txt");
    fs::write(&text, "zone 0 hall 0\nplan\n").unwrap();
    assert_eq!(galz(&["pack", text.to_str().unwrap(), dir]).status, 0);
    let page = folder.join("run.html");
    assert_eq!(
        galz(&["picture", dir, "-o", page.to_str().unwrap()]).status,
        0
    );
    let address = format!("file://{}", fs::canonicalize(&page).unwrap().display());
    let mut browser = Browser::open(&folder.join("profile"), &address);
    browser.press_space();
    browser.press_right();
    assert_eq!(browser.state(), "0 no ");
    let moves = browser.text("document.getElementById('moves').textContent");
    assert_eq!(moves, "There are no moves.");
}

/// Every round of the largest example, named in the address, against the
/// listing's moves.
#[test]
#[cfg_attr(not(chromium), ignore = "there is no chromium")]
fn each_round_shows_the_moves_up_to_it() {
    let (profile, page, listed) = page_of("cold-store");
    let mut browser = Browser::open(&profile, &format!("{page}#round=4"));
    assert!(
        browser.state().starts_with("4 no "),
        "the address is read at once"
    );
    let moves: Vec<[usize; 4]> = listed
        .lines()
        .skip(1)
        .map(|line| {
            let numbers = line.split(' ').map(|word| word.parse().unwrap());
            numbers.collect::<Vec<_>>().try_into().unwrap()
        })
        .collect();
    let last = moves.iter().map(|next| next[3]).max().unwrap();
    assert_eq!(last, 11);
    for round in (0..=last).rev() {
        let mut points = [1, 3, 4, 6, 17, 13];
        for [cart, from, to, _] in moves.iter().filter(|next| next[3] <= round) {
            assert_eq!(points[*cart], *from);
            points[*cart] = *to;
        }
        let points: Vec<String> = points.iter().map(usize::to_string).collect();
        browser.text(&format!("location.hash = '#round={round}'"));
        let wanted = format!("{round} no {}", points.join(","));
        browser.wait(STATE, |state| state == wanted);
        browser.wait(OFF, |text| text == "true");
    }
}
