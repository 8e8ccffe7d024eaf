//! The compiled controller against the reference: scripts through a pipe, every answer compared.
//!   passes PROGRAM      the program that runs scripts

mod script;

use reference::families::FAMILIES;
use reference::recorder::{Due, Op, Recorder};
use reference::text::{hex, trace_text};
use std::io::{Read, Write};
use std::process::{exit, Command, Stdio};
use std::thread;

/// No script has a longer trace.
const MOST_SYMBOLS: usize = 1000;

fn fail(text: &str) -> ! {
    eprintln!("FAILED {text}");
    exit(1)
}

/// What the program writes for the input given, and what went wrong with it, if anything.
fn run(program: &str, input: Vec<u8>) -> (Vec<u8>, Option<String>) {
    let spawned = Command::new(program).stdin(Stdio::piped()).stdout(Stdio::piped()).spawn();
    let mut child = spawned.unwrap_or_else(|error| fail(&format!("{program}: {error}")));
    let mut to_child = child.stdin.take().expect("a pipe to the program");
    let writer = thread::spawn(move || to_child.write_all(&input));
    let mut output = vec![];
    let read = child.stdout.take().expect("a pipe from the program").read_to_end(&mut output);
    let written = writer.join().expect("the writer ends");
    let status = child.wait().expect("the program was started");
    let good = read.is_ok() && written.is_ok() && status.success();
    (output, if good { None } else { Some(format!("read {read:?}, written {written:?}, {status}")) })
}

fn op_text(op: &Op) -> String {
    match op {
        Op::New(occupied, last_pick) => {
            format!("new, occupied {}, last pick {last_pick:02x}", hex(&occupied.iter().copied().collect::<Vec<_>>()))
        }
        Op::Start => "start".to_string(),
        Op::Step(trace) => format!("step {}", trace_text(trace)),
        Op::Choose(trace) => format!("choose {}", trace_text(trace)),
        Op::Issue => "issue".to_string(),
        Op::Decline => "decline".to_string(),
        Op::Lookups => "lookups and the last pick".to_string(),
        Op::Gone(number) => format!("gone {number:02x}"),
    }
}

/// The last operations up to the one at fault: the controller, and the pass from its start.
fn history(entries: &[(Op, Due)], at: usize) -> String {
    let last = |wanted: fn(&Op) -> bool| entries[..=at].iter().rposition(|(op, _)| wanted(op)).unwrap_or(0);
    let new = last(|op| matches!(op, Op::New(..)));
    let start = last(|op| matches!(op, Op::Start)).max(new + 1).min(at);
    let shown = [new].into_iter().chain(start..=at);
    let line = |k: usize| match &entries[k] {
        (op, Due::Command(command)) => format!("  {} -> {command:02x?}\n", op_text(op)),
        (op, Due::Gone(found)) => format!("  {} -> {}\n", op_text(op), found.number()),
        (op, _) => format!("  {}\n", op_text(op)),
    };
    shown.map(line).collect()
}

/// The place of the first difference, told by the part of an answer that it is in. Of lookups part 128 is the last
/// pick.
fn difference(due: &[u8], given: &[u8]) -> String {
    let part = if due.len() > 18 { 17 } else { 18 };
    let place = (0..due.len()).find(|&k| due.get(k) != given.get(k)).unwrap_or(0) / part;
    let cut = |bytes: &[u8]| hex(&bytes[(place * part).min(bytes.len())..((place + 1) * part).min(bytes.len())]);
    format!("part {place} of the answer\ndue    {}\ngiven  {}", cut(due), cut(given))
}

fn compare(name: &str, entries: &[(Op, Due)], given: &[u8]) -> usize {
    let (mut from, mut answers) = (0, 0);
    for (k, (_, due)) in entries.iter().enumerate() {
        let due = script::output(due);
        let part = &given[from.min(given.len())..(from + due.len()).min(given.len())];
        if part != due {
            fail(&format!("{name}, entry {k}\n{}{}", history(entries, k), difference(&due, part)));
        }
        from += due.len();
        answers += usize::from(!due.is_empty());
    }
    if given.len() > from {
        fail(&format!("{name}: {} bytes after the last answer", given.len() - from));
    }
    answers
}

/// One family through the program; the number of its passes.
fn family(program: &str, name: &str, recorder: &Recorder) -> usize {
    let too_long = |op: &Op| op.trace().is_some_and(|trace| trace.len() > MOST_SYMBOLS);
    assert!(!recorder.entries.iter().any(|(op, _)| too_long(op)), "{name}: a trace is too long");
    let input = recorder.entries.iter().flat_map(|(op, _)| script::input(op)).collect();
    let (output, trouble) = run(program, input);
    let answers = compare(name, &recorder.entries, &output);
    if let Some(text) = trouble {
        fail(&format!("{name}: {text}"));
    }
    let passes = recorder.passes();
    assert!(passes > 0 && answers > 0, "{name}: no cases");
    let (reports, choices) = (recorder.reports(), recorder.choices());
    println!("{name:<28}{answers:>9} cases{passes:>9} passes{reports:>9} reports{choices:>9} choices");
    passes
}

fn main() {
    let program = std::env::args().nth(1).expect("passes PROGRAM");
    let (mut passes, mut reports, mut choices) = (0, 0, 0);
    for (name, make) in FAMILIES {
        let recorder = make();
        passes += family(&program, name, &recorder);
        reports += recorder.reports();
        choices += recorder.choices();
    }
    println!("{:<28}{passes:>24} passes{reports:>9} reports{choices:>9} choices", "controller, all");
    assert!(passes >= 3000 && reports >= 3000 && choices >= 3000, "too few passes, or reports, or choices");
}
