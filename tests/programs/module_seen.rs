//! What random lines about a module have to reach: each answer, each refusal, each kind of packet and of module.

use reference::module::{kind_of, Kind, Module};
use std::collections::BTreeMap;

const ANSWERS: [&str; 8] = ["module", "start", "ack", "nack", "byte", "released", "lost", "stop"];

const REFUSALS: [&str; 8] = [
    "a module, which the verb module makes",
    "start, byte, supply, lost, stop or state",
    "an odd byte, below 255 for a fixed module",
    "0 or 1",
    "8 hexadecimal digits",
    "a UDID of 32 hexadecimal digits",
    "a byte, 0 to 255",
    "the end of the line",
];

const EFFECTS: [&str; 10] = [
    "Fixed is moved",
    "Persistent is moved",
    "Volatile is moved",
    "Random is moved",
    "Fixed is home again",
    "Volatile has no address any more",
    "Random has no address any more",
    "Random has other bytes",
    "a general reply is whole",
    "a directed reply is whole",
];

/// How often each was reached.
#[derive(Default)]
pub struct ModulesSeen(BTreeMap<String, usize>);

fn kind(module: &Module) -> Kind {
    kind_of(&module.udid)
}

/// What a line did to a module.
fn effects(before: &Module, after: &Module) -> Vec<String> {
    let kind = kind(before);
    let mut effects = vec![];
    let (resets, lost) = (!after.resolved, before.address.is_some() && after.address.is_none());
    if after.resolved && before.address != after.address {
        effects.push(format!("{kind:?} is moved"));
    }
    if kind == Kind::Fixed && resets && before.address != after.address && after.address == Some(after.home) {
        effects.push("Fixed is home again".to_string());
    }
    if lost {
        effects.push(format!("{kind:?} has no address any more"));
    }
    if before.udid != after.udid {
        effects.push(format!("{kind:?} has other bytes"));
    }
    if before.is_sending() && !after.is_sending() && after.bytes_heard().is_some_and(|bytes| bytes.len() == 3) {
        let general = after.bytes_heard().is_some_and(|bytes| bytes[1] == 3);
        effects.push(format!("a {} reply is whole", if general { "general" } else { "directed" }));
    }
    effects
}

impl ModulesSeen {
    fn count(&mut self, what: &str) {
        *self.0.entry(what.to_string()).or_default() += 1;
    }

    /// A line, its answer, and the module before and after it.
    pub fn add(&mut self, line: &[u8], answer: &str, before: Option<&Module>, after: Option<&Module>) {
        let text = String::from_utf8_lossy(line);
        let verb = text.split_whitespace().next();
        if !matches!(verb, Some("m" | "module")) {
            assert!(before == after || after.is_none(), "{text} has changed the module");
            return;
        }
        if let Some((_, expected)) = answer.trim_end().split_once(" expected ") {
            assert_eq!(before, after, "{text} has changed the module");
            return self.count(expected);
        }
        let words: Vec<&str> = answer.split_whitespace().skip(1).collect();
        words.first().into_iter().for_each(|word| self.count(word));
        if verb == Some("m") {
            let (before, after) = before.zip(after).expect("a module");
            effects(before, after).iter().for_each(|effect| self.count(effect));
        }
    }

    /// Everything was reached.
    pub fn check(&self) {
        for what in ANSWERS.iter().chain(&REFUSALS).chain(&EFFECTS) {
            let times = self.0.get(*what).copied().unwrap_or(0);
            assert!(times > 20, "too few lines about modules reach '{what}': {times}");
        }
    }

    /// How many lines were about modules.
    pub fn lines(&self) -> usize {
        ANSWERS.iter().chain(&REFUSALS).filter_map(|what| self.0.get(*what)).sum()
    }
}
