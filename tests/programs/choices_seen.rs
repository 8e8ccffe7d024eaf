//! What the random lines about choices have to reach: each reason, each answer, and what comes while a choice waits.

use std::collections::BTreeMap;

/// How often each was reached.
#[derive(Default)]
pub struct ChoicesSeen {
    /// Why an address was chosen.
    reasons: BTreeMap<String, usize>,
    /// The verb, the number of the answer, and whether a choice waited before.
    verbs: BTreeMap<(String, u32, bool), usize>,
}

/// Verbs with the number of an answer that they have while a choice waits, or while none does.
const WANTED: [(&str, u32, bool); 28] = [
    ("choose", 0, false),
    ("choose", 13, false),
    ("choose", 14, false),
    ("choose", 21, false),
    ("choose", 21, true),
    ("step", 0, false),
    ("step", 13, false),
    ("step", 14, false),
    ("step", 21, false),
    ("step", 21, true),
    ("issue", 0, true),
    ("issue", 21, false),
    ("decline", 14, true),
    ("decline", 21, false),
    ("start", 0, true),
    ("clear", 0, true),
    ("occupied", 0, true),
    ("run", 0, true),
    ("grid", 0, true),
    ("lookup", 0, true),
    ("lookup", 15, true),
    ("lookup", 16, true),
    ("lookup", 20, true),
    ("gone", 0, true),
    ("gone", 1, true),
    ("gone", 15, true),
    ("gone", 16, true),
    ("gone", 20, true),
];

impl ChoicesSeen {
    /// A line and its answer, and whether a choice waited before it.
    pub fn add(&mut self, line: &[u8], answer: &str, waited: bool) {
        let text = String::from_utf8_lossy(line);
        let words: Vec<&str> = answer.split_whitespace().collect();
        let (Some(verb), Some(Ok(number))) = (text.split_whitespace().next(), words.first().map(|word| word.parse()))
        else {
            return;
        };
        *self.verbs.entry((verb.to_string(), number, waited)).or_default() += 1;
        if let ["0", "chosen", _, _, reason] = words[..] {
            *self.reasons.entry(reason.to_string()).or_default() += 1;
        }
    }

    /// Each was reached 20 times. An issue and a decline have no other answers.
    pub fn check(&self) {
        for (verb, number, waited) in WANTED {
            let times = self.verbs.get(&(verb.to_string(), number, waited)).copied().unwrap_or(0);
            assert!(times >= 20, "{verb} is answered with {number}, a choice waits {waited}: {times} times");
        }
        for verb in ["issue", "decline"] {
            let answers = self.verbs.keys().filter(|(other, ..)| other == verb).count();
            assert_eq!(answers, 2, "the answers to {verb}: {:?}", self.verbs);
        }
        for reason in ["fixed", "kept", "picked", "claimed"] {
            let times = self.reasons.get(reason).copied().unwrap_or(0);
            assert!(times >= 20, "chosen, {reason}: {times} times");
        }
        assert_eq!(self.reasons.len(), 4, "{:?}", self.reasons);
    }

    /// How often each reason was given.
    pub fn reasons(&self) -> &BTreeMap<String, usize> {
        &self.reasons
    }

    /// How many choices waited.
    pub fn choices(&self) -> usize {
        self.reasons.values().sum()
    }
}
