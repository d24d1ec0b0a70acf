//! Counts what a run met and says whether the run is good.

use crate::aimed::PAIRS;
use crate::compare::{Lent, Outcome};
use crate::second::{Answer, Lookup};
use crate::subject::FoundTarget;
use std::collections::BTreeMap;

/// How many differences are shown.
const SHOWN: usize = 5;

/// The most bytes of a file that are shown.
const SHOWN_BYTES: usize = 4096;

#[derive(Default)]
pub struct Tally {
    passed: u64,
    failed: u64,
    judged: u64,
    accepted: u64,
    rules: BTreeMap<u8, u64>,
    pairs: BTreeMap<(u8, u8), u64>,
    refusals: BTreeMap<u8, u64>,
    lookups: BTreeMap<&'static str, u64>,
    /// The calls of the library; none where there is no library.
    checks: u64,
    found: BTreeMap<&'static str, u64>,
    shown: Vec<String>,
}

impl Tally {
    /// Counts one case.
    pub fn count(&mut self, number: u64, file: &[u8], outcome: &Outcome) {
        self.judged += u64::from(outcome.judged);
        match &outcome.answer {
            Answer::Refused(refusal) => add(&mut self.refusals, *refusal),
            Answer::Checked(report) => match report.breach {
                None => self.accepted += 1,
                Some(breach) => {
                    add(&mut self.rules, breach.rule);
                    add(&mut self.pairs, (breach.rule, breach.step));
                }
            },
        }
        for lookup in &outcome.lookups {
            add(&mut self.lookups, title(lookup));
        }
        match outcome.differences.is_empty() {
            true => self.passed += 1,
            false => self.fail(number, file, &outcome.differences),
        }
    }

    /// Counts the library's calls on one case; their differences are the case's.
    pub fn count_lent(&mut self, lent: &Lent) {
        self.checks += lent.checks;
        for found in &lent.found {
            add(&mut self.found, found_title(found));
        }
    }

    /// Counts a case that differs and keeps the first few.
    fn fail(&mut self, number: u64, file: &[u8], differences: &[String]) {
        self.failed += 1;
        if self.shown.len() < SHOWN {
            let bytes = &file[..file.len().min(SHOWN_BYTES)];
            let lines = differences.join("\n  ");
            let hex = hex(bytes);
            self.shown.push(format!(
                "story {number}, {} bytes: {hex}\n  {lines}",
                file.len()
            ));
        }
    }

    /// What never occurred, though a good run has it.
    pub fn absent(&self) -> Vec<String> {
        let mut absent = Vec::new();
        if self.accepted == 0 {
            absent.push("acceptance".to_string());
        }
        let rules = (1..=15).filter(|rule| !self.rules.contains_key(rule));
        absent.extend(rules.map(|rule| format!("rule {rule}")));
        let pairs = PAIRS.iter().filter(|pair| !self.pairs.contains_key(pair));
        absent.extend(pairs.map(|(rule, step)| format!("rule {rule} in step {step}")));
        let refusals = (1..=8).filter(|refusal| !self.refusals.contains_key(refusal));
        absent.extend(refusals.map(|refusal| format!("refusal {refusal}")));
        if self.checks > 0 {
            let found = FOUND
                .iter()
                .filter(|title| !self.found.contains_key(*title));
            absent.extend(found.map(|title| format!("the library's lookup: {title}")));
        }
        absent
    }

    /// Whether nothing differed and nothing was absent.
    pub fn good(&self) -> bool {
        self.failed == 0 && self.absent().is_empty()
    }

    /// The report, whose last line is `N passed, M failed`.
    pub fn report(&self) -> String {
        let mut lines = vec![format!("accepted: {}", self.accepted)];
        for (rule, count) in &self.rules {
            lines.push(format!("rule {rule}: {count} ({})", self.steps(*rule)));
        }
        for (refusal, count) in &self.refusals {
            lines.push(format!("refusal {refusal}: {count}"));
        }
        lines.push(format!("lookups: {}", listed(&self.lookups)));
        lines.push(format!("judged by the original: {}", self.judged));
        if self.checks > 0 {
            lines.push(format!("checks of the library: {}", self.checks));
            lines.push(format!("lookups of the library: {}", listed(&self.found)));
        }
        lines.extend(self.shown.iter().map(|one| format!("difference in {one}")));
        let absent = self.absent();
        if !absent.is_empty() {
            lines.push(format!(
                "not a good run, never occurred: {}",
                absent.join(", ")
            ));
        }
        lines.push(format!("{} passed, {} failed", self.passed, self.failed));
        lines.join("\n")
    }

    /// How often a rule was the first breach in each step.
    fn steps(&self, rule: u8) -> String {
        let own = self.pairs.iter().filter(|(pair, _)| pair.0 == rule);
        let steps = own.map(|((_, step), count)| format!("step {step}: {count}"));
        steps.collect::<Vec<_>>().join(", ")
    }
}

/// Counts with their keys, in one line.
fn listed(counts: &BTreeMap<&'static str, u64>) -> String {
    let counts = counts.iter().map(|(key, count)| format!("{key} {count}"));
    counts.collect::<Vec<_>>().join(", ")
}

/// Adds one to a count.
fn add<K: Ord>(counts: &mut BTreeMap<K, u64>, key: K) {
    *counts.entry(key).or_default() += 1;
}

/// The name of a lookup's answer.
pub fn title(lookup: &Lookup) -> &'static str {
    match lookup {
        Lookup::Pass => "pass",
        Lookup::Function => "function",
        Lookup::Reserved => "reserved",
        Lookup::Exact(_) => "exact",
        Lookup::Ending(_) => "ending",
        Lookup::Missing => "missing",
    }
}

/// The names of everything that a library's lookup answers.
const FOUND: [&str; 13] = [
    "pass",
    "function",
    "reserved",
    "exact",
    "ending",
    "missing",
    "refused 1",
    "refused 2",
    "refused 3",
    "refused 4",
    "refused 5",
    "refused 6",
    "refused 7",
];

/// The name of what a library's lookup answers.
fn found_title(found: &FoundTarget) -> &'static str {
    match found {
        FoundTarget::Pass => FOUND[0],
        FoundTarget::Function => FOUND[1],
        FoundTarget::Reserved => FOUND[2],
        FoundTarget::Exact(_) => FOUND[3],
        FoundTarget::Ending(_) => FOUND[4],
        FoundTarget::Missing => FOUND[5],
        FoundTarget::Refused(number) => {
            let place = 5 + usize::from(*number);
            FOUND.get(place).copied().unwrap_or("another refusal")
        }
    }
}

/// Bytes as hexadecimal pairs.
pub fn hex(bytes: &[u8]) -> String {
    bytes.iter().map(|byte| format!("{byte:02x}")).collect()
}
