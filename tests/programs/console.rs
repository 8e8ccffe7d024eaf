//! The compiled console against the reference: request files, sessions worked out by hand, random and hostile ones.
//!   console PROGRAM FILES..     each FILE holds requests; what is due stands beside it, in stdout for stdin, else in NAME.expected
//!   console write FILES..       writes what is due anew, from the reference

mod choice_sessions;
mod choices_seen;
mod module_seen;
mod module_sessions;
mod sessions;

use choices_seen::ChoicesSeen;
use module_seen::ModulesSeen;
use reference::addresses::added;
use reference::console::{lines, Console};
use reference::module_lines::module_line;
use reference::random::Random;
use reference::requests::any_line;
use std::collections::BTreeMap;
use std::io::{BufRead, BufReader, Read, Write};
use std::path::{Path, PathBuf};
use std::process::{exit, Child, Command, Stdio};
use std::sync::mpsc;
use std::thread;
use std::time::Duration;

const SESSIONS: u64 = 180;
/// Of these, sessions that are mostly about modules.
const ABOUT_MODULES: u64 = 30;
const LINES: usize = 1000;

fn fail(text: &str) -> ! {
    eprintln!("FAILED {text}");
    exit(1)
}

fn spawn(program: &str, words: &[&str]) -> Child {
    let spawned = Command::new(program).args(words).stdin(Stdio::piped()).stdout(Stdio::piped()).spawn();
    spawned.unwrap_or_else(|error| fail(&format!("{program}: {error}")))
}

/// What the program writes for an input.
fn run(program: &str, words: &[&str], input: Vec<u8>) -> Vec<u8> {
    let mut child = spawn(program, words);
    let mut to_child = child.stdin.take().expect("a pipe to the program");
    let writer = thread::spawn(move || to_child.write_all(&input));
    let mut output = vec![];
    child.stdout.take().expect("a pipe from the program").read_to_end(&mut output).expect("the program writes");
    let written = writer.join().expect("the writer ends");
    let status = child.wait().expect("the program was started");
    if !status.success() || (words.is_empty() && written.is_err()) {
        fail(&format!("{program}: {status}, {written:?}"));
    }
    output
}

fn shown(text: &[u8]) -> String {
    let cut = &text[..text.len().min(300)];
    String::from_utf8_lossy(cut).escape_debug().to_string()
}

/// Each line's answer in turn; the first difference ends the run.
fn compare(name: &str, answers: &[(Vec<u8>, String)], given: &[u8]) {
    let mut from = 0;
    for (k, (line, due)) in answers.iter().enumerate() {
        let part = &given[from.min(given.len())..(from + due.len()).min(given.len())];
        if part != due.as_bytes() {
            let (line, due, part) = (shown(line), shown(due.as_bytes()), shown(part));
            fail(&format!("{name}, line {}\nrequest {line}\ndue     {due}\ngiven   {part}", k + 1));
        }
        from += due.len();
    }
    if given.len() > from {
        fail(&format!("{name}: {} after the last answer", shown(&given[from..])));
    }
}

fn answers_to(input: &[u8]) -> Vec<(Vec<u8>, String)> {
    let mut console = Console::new();
    lines(input).into_iter().map(|line| (line.to_vec(), console.answer(line))).collect()
}

/// The file of what is due.
fn due_beside(path: &str) -> PathBuf {
    let place = Path::new(path);
    match place.extension() {
        Some(_) => place.with_extension("expected"),
        None => place.with_file_name("stdout"),
    }
}

fn read(path: &Path) -> Vec<u8> {
    std::fs::read(path).unwrap_or_else(|error| fail(&format!("{}: {error}", path.display())))
}

fn write(path: &str) {
    let text: String = answers_to(&read(Path::new(path))).into_iter().map(|(_, due)| due).collect();
    std::fs::write(due_beside(path), text).unwrap_or_else(|error| fail(&format!("{path}: {error}")));
}

/// A request file: the reference, the file of what is due, and the program agree.
fn file(program: &str, path: &str) -> usize {
    let due = due_beside(path);
    let (input, expected) = (read(Path::new(path)), read(&due));
    let answers = answers_to(&input);
    compare(&due.display().to_string(), &answers, &expected);
    compare(path, &answers, &run(program, &[], input.clone()));
    let count = answers.iter().filter(|(_, due)| !due.is_empty()).count();
    assert!(count > 0, "{path}: no requests");
    count
}

/// The answers worked out by hand: the reference and the program give them.
fn by_hand<S: AsRef<str>>(program: &str, name: &str, session: &[(S, S)]) -> usize {
    let input: String = session.iter().map(|(line, _)| format!("{}\n", line.as_ref())).collect();
    let answered = |(line, due): &(S, S)| (line.as_ref().as_bytes().to_vec(), format!("{}\n", due.as_ref()));
    let due: Vec<(Vec<u8>, String)> = session.iter().map(answered).collect();
    let reference: String = answers_to(input.as_bytes()).into_iter().map(|(_, answer)| answer).collect();
    compare(&format!("{name}, the reference"), &due, reference.as_bytes());
    compare(name, &due, &run(program, &[], input.into_bytes()));
    due.len()
}

/// What the random lines were answered with.
#[derive(Default)]
struct Seen {
    /// By number; 22 is for '?', 23 for no answer.
    numbers: [usize; 24],
    /// The last picks that model runs were given, and the number of each answer.
    last_picks: Vec<(u8, u32)>,
    /// The first words of the lines that were read, with the number of the answer.
    verbs: BTreeMap<(String, usize), usize>,
    /// The grids that show an address left.
    left: usize,
    /// What grids and model runs show on the added rows of the table.
    rows: BTreeMap<&'static str, usize>,
    /// What lines about a module reach.
    modules: ModulesSeen,
    /// What lines about choices reach.
    choices: ChoicesSeen,
}

impl Seen {
    fn add(&mut self, line: &[u8], answer: &str) {
        let first = answer.split_whitespace().next().unwrap_or("");
        let number = if first == "?" { 22 } else { first.parse().unwrap_or(23) };
        self.numbers[number] += 1;
        self.last_picks.extend(given_last_pick(line, answer));
        let text = String::from_utf8_lossy(line);
        if let Some(verb) = text.split_whitespace().next().filter(|_| number < 22) {
            *self.verbs.entry((verb.to_string(), number)).or_default() += 1;
        }
        self.left += usize::from(answer.starts_with("0 grid") && answer.contains(" LL"));
        for row in added() {
            *self.rows.entry(shown_on(row, answer)).or_default() += 1;
        }
    }

    /// Every number comes, and each of those that a lookup and a report can be answered with.
    fn check(&self) {
        self.modules.check();
        self.choices.check();
        check_last_picks(&self.last_picks);
        for number in (0..=22).filter(|number| ![2, 9].contains(number)) {
            assert!(self.numbers[number] > 20, "too few lines are answered with {number}");
        }
        for verb in ["lookup", "gone"] {
            for number in [0, 1, 15, 16, 20] {
                let times = self.verbs.get(&(verb.to_string(), number)).copied().unwrap_or(0);
                assert!(times > 20, "too few lines {verb} are answered with {number}");
            }
        }
        assert!(self.left > 20, "too few grids show what is left");
        for what in ["UU", "LL", "XX", "bound", "bound by a run"] {
            let times = self.rows.get(what).copied().unwrap_or(0);
            assert!(times > 20, "too few answers show {what} on an added row: {times}");
        }
    }

    /// How many reports were answered.
    fn reports(&self) -> usize {
        self.verbs.iter().filter(|((verb, _), _)| verb == "gone").map(|(_, times)| times).sum()
    }
}

/// What the answer shows of an address: the cell of a grid, or that a model run bound somebody there.
fn shown_on(address: u8, answer: &str) -> &'static str {
    let bound = format!("\n 0x{address:02x} ");
    if !answer.starts_with("0 grid") {
        return if answer.contains(&bound) { "bound by a run" } else { "" };
    }
    let line = answer.lines().nth(2 + usize::from(address / 16)).expect("a row of the grid");
    match line.split(' ').nth(1 + usize::from(address % 16)) {
        Some("UU") => "UU",
        Some("LL") => "LL",
        Some("XX") => "XX",
        Some("--") => fail(&format!("a grid shows {address:02x} as free\n{answer}")),
        _ => "bound",
    }
}

/// The last pick that a model run was given, if the line is one that gives it, and the number of the answer.
fn given_last_pick(line: &[u8], answer: &str) -> Option<(u8, u32)> {
    let text = std::str::from_utf8(line).ok()?;
    let mut words = text.split('#').next()?.split_whitespace();
    if words.next() != Some("run") {
        return None;
    }
    let word = words.next()?;
    let last_pick = match word.strip_prefix("0x") {
        Some(digits) => u8::from_str_radix(digits, 16).ok()?,
        None => word.parse().ok()?,
    };
    Some((last_pick, answer.split_whitespace().next()?.parse().ok()?))
}

/// The random model runs have last picks of every kind, those that matter among them, and end in each way.
fn check_last_picks(given: &[(u8, u32)]) {
    for wanted in [0, 126, 127, 128, 255] {
        let times = given.iter().filter(|(last_pick, _)| *last_pick == wanted).count();
        assert!(times > 20, "too few model runs have the last pick {wanted}");
    }
    for wanted in [0, 1, 10, 11, 12, 13] {
        let times = given.iter().filter(|(_, number)| *number == wanted).count();
        assert!(times > 20, "too few model runs with a last pick are answered with {wanted}");
    }
    assert!(given.iter().all(|(last_pick, number)| (*last_pick > 127) == (*number == 1)), "1 is for those above 127");
}

/// A session of random lines. Every second one ends without a line feed.
fn session(program: &str, seed: u64, seen: &mut Seen) -> usize {
    let mut random = Random::new(seed);
    let mut console = Console::new();
    let mut answers = vec![];
    for _ in 0..LINES {
        let line = match seed < ABOUT_MODULES {
            true => module_line(&mut random, &console),
            false => any_line(&mut random, &console),
        };
        let (before, waits) = (console.module().cloned(), console.last().is_choice());
        let due = console.answer(&line);
        seen.add(&line, &due);
        seen.choices.add(&line, &due, waits);
        seen.modules.add(&line, &due, before.as_ref(), console.module());
        answers.push((line, due));
    }
    let mut input: Vec<u8> = answers.iter().flat_map(|(line, _)| [&line[..], b"\n"].concat()).collect();
    if seed % 2 == 1 {
        input.pop();
    }
    compare(&format!("session {seed}"), &answers, &run(program, &[], input));
    answers.len()
}

/// A line that is typed is answered before the next one comes.
fn typed(program: &str) {
    let mut child = spawn(program, &[]);
    let mut to_child = child.stdin.take().expect("a pipe to the program");
    let from_child = BufReader::new(child.stdout.take().expect("a pipe from the program"));
    let (sender, receiver) = mpsc::channel();
    let reader =
        thread::spawn(move || from_child.lines().for_each(|line| sender.send(line.expect("text")).expect("a reader")));
    for (part, due) in [("pec 0x01\n", "0 pec 0x07"), ("pec 0x", ""), ("80\nclear\n", "0 pec 0x89"), ("", "0 clear")] {
        to_child.write_all(part.as_bytes()).expect("the program reads");
        if !due.is_empty() {
            let given = receiver.recv_timeout(Duration::from_secs(20));
            assert_eq!(given.as_deref(), Ok(due), "an answer to what was typed");
        }
    }
    drop(to_child);
    reader.join().expect("the reader ends");
    child.wait().expect("the program was started");
}

/// What the arguments print.
fn arguments(program: &str) {
    let help = String::from_utf8(run(program, &["help"], vec![])).expect("text");
    let verbs = [
        "pec", "encode", "decode", "occupied", "target", "clear", "run", "start", "step", "choose", "issue", "decline",
        "lookup", "gone", "grid", "module", "m",
    ];
    for verb in verbs {
        assert!(help.lines().any(|line| line.split(' ').next() == Some(verb)), "help has {verb}");
    }
    assert!(help.lines().any(|line| line.starts_with("run ") && line.contains("LAST")), "help has run LAST");
    for number in ["3", "4", "5", "6", "7", "8", "17", "18", "19"] {
        assert!(help.lines().any(|line| line.split(' ').next() == Some(number)), "help has {number}");
    }
    assert!(run(program, &["version"], vec![]).starts_with(b"headboarded "), "version");
    assert!(run(program, &["versions"], vec![]).starts_with(b"? "), "an argument that is none");
}

fn main() {
    let words: Vec<String> = std::env::args().skip(1).collect();
    let (program, files) = words.split_first().expect("console PROGRAM FILES..");
    if program == "write" {
        return files.iter().for_each(|path| write(path));
    }
    let requests: usize = files.iter().map(|path| file(program, path)).sum();
    let worked = by_hand(program, "wrong symbols", &sessions::WRONG_SYMBOLS)
        + by_hand(program, "last picks", &sessions::LAST_PICKS)
        + by_hand(program, "reports", &sessions::GONE)
        + by_hand(program, "rows of the table", &sessions::ROWS)
        + by_hand(program, "the choice of the order", &choice_sessions::EXAMPLE)
        + by_hand(program, "choices refused", &choice_sessions::REFUSED)
        + by_hand(program, "choices issued", &choice_sessions::issued())
        + by_hand(program, "choices declined", &choice_sessions::declined());
    let about_modules = by_hand(program, "the module of the order", &module_sessions::EXAMPLE)
        + by_hand(program, "modules refused", &module_sessions::REFUSED)
        + by_hand(program, "fresh bytes", &module_sessions::FRESH_BYTES)
        + by_hand(program, "a module beside", &module_sessions::BESIDE)
        + by_hand(program, "modules worked by hand", &module_sessions::cases());
    let mut seen = Seen::default();
    let random: usize = (0..SESSIONS).map(|seed| session(program, seed, &mut seen)).sum();
    seen.check();
    typed(program);
    arguments(program);
    println!("{:<28}{requests:>9} requests in files", "console");
    println!("{:<28}{worked:>9} requests worked out by hand", "console");
    println!("{:<28}{about_modules:>9} requests about modules worked out by hand", "console");
    println!("{:<28}{random:>9} random lines, answers by number {:?}", "console", seen.numbers);
    println!("{:<28}{:>9} random model runs with a last pick", "console", seen.last_picks.len());
    println!("{:<28}{:>9} random reports, {} grids with what is left", "console", seen.reports(), seen.left);
    println!("{:<28}{:>9} random lines about a module", "console", seen.modules.lines());
    println!("{:<28}{:>9} random choices {:?}", "console", seen.choices.choices(), seen.choices.reasons());
    seen.rows.remove("");
    println!("{:<28}on added rows {:?}", "console", seen.rows);
}
