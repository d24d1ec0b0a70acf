//! Compares the original, the second implementation and the subject on one case.

use crate::ast::ParsedStory;
use crate::cases::Case;
use crate::decode::{Decoded, decode};
use crate::layout::TRAILER;
use crate::second::{self, Answer, Breach, Entry, Lookup, MESSAGE, Report};
use crate::subject::{FoundTarget, Observed, Returned, Subject};
use crate::validator::oracle;
use std::collections::BTreeSet;

/// What a comparison saw.
pub struct Outcome {
    pub answer: Answer,
    /// Whether the original gave the verdict too.
    pub judged: bool,
    pub lookups: Vec<Lookup>,
    /// What the subject's lookups found.
    pub found: Vec<FoundTarget>,
    /// Every difference, as a line.
    pub differences: Vec<String>,
}

/// What the comparisons of one case with buffers of several lengths saw.
#[derive(Default)]
pub struct Lent {
    pub checks: u64,
    /// What the lookups found.
    pub found: Vec<FoundTarget>,
    /// Every difference, as a line.
    pub differences: Vec<String>,
}

/// The content of lent buffers before a call.
const OLD_NUMBER: u32 = 0xA5A5_5A5A;
const OLD_BYTE: u8 = 0xA5;

/// Compares everything that can be compared on one case.
pub fn compare(case: &Case, subject: Option<&mut dyn Subject>) -> Outcome {
    let mut outcome = Outcome::of(case);
    match decode(&case.file) {
        Err(refusal) => outcome.expect_refusal(refusal),
        Ok(decoded) => outcome.compare_readable(case, &decoded),
    }
    if let Some(subject) = subject {
        outcome.compare_subject(case, subject);
        outcome.compare_subject_lookups(case, subject);
    }
    outcome
}

/// The subject against the second implementation, with buffers just long enough, one short and longer.
pub fn compare_lent(case: &Case, subject: &mut dyn Subject) -> Lent {
    let enough = 3 * case.file.len().saturating_sub(TRAILER);
    let lengths = [
        (enough, MESSAGE),
        (enough.saturating_sub(1), MESSAGE),
        (enough, MESSAGE - 1),
        (enough + 4, MESSAGE + 9),
    ];
    let mut lent = Lent::default();
    for (index, message) in lengths {
        let mut case = case.clone();
        (case.index, case.message) = (index, message);
        let mut outcome = Outcome::of(&case);
        outcome.compare_subject(&case, subject);
        if message >= MESSAGE {
            outcome.compare_subject_lookups(&case, subject);
        }
        lent.take(outcome, &format!("lent {index} and {message}: "));
    }
    lent
}

impl Lent {
    /// Takes the outcome with buffers of some lengths in.
    fn take(&mut self, outcome: Outcome, lengths: &str) {
        self.checks += 1;
        self.found.extend(outcome.found);
        let lines = outcome.differences.into_iter();
        self.differences
            .extend(lines.map(|line| lengths.to_string() + &line));
    }
}

impl Outcome {
    /// What the second implementation answers, before anything is compared.
    fn of(case: &Case) -> Self {
        Outcome {
            answer: second::check(&case.file, case.index, case.message),
            judged: false,
            lookups: Vec::new(),
            found: Vec::new(),
            differences: Vec::new(),
        }
    }

    /// Notes a difference.
    fn differ(&mut self, what: &str, expected: impl std::fmt::Debug, got: impl std::fmt::Debug) {
        let line = format!("{what}: expected {expected:?}, got {got:?}");
        self.differences.push(line);
    }

    /// The answer must be this refusal.
    fn expect_refusal(&mut self, refusal: u8) {
        if self.answer != Answer::Refused(refusal) {
            let got = self.answer.clone();
            self.differ("refusal", refusal, got);
        }
    }

    /// Refusals 7 and 8, or everything that the original says.
    fn compare_readable(&mut self, case: &Case, decoded: &Decoded) {
        if case.index < 3 * (case.file.len() - TRAILER) {
            return self.expect_refusal(7);
        }
        if case.message < MESSAGE {
            return self.expect_refusal(8);
        }
        let Answer::Checked(report) = self.answer.clone() else {
            let got = self.answer.clone();
            return self.differ("a readable file", "no refusal", got);
        };
        self.check_bounds(case, &report);
        self.check_places(case);
        if decoded.names_are_utf8 {
            self.judged = true;
            self.compare_verdict(case, &decoded.story, &report);
            self.compare_steps(case, &decoded.story, &report);
            self.compare_targets(case, &decoded.story, &report.entries);
        }
    }

    /// The index fits what was lent, and the message its buffer.
    fn check_bounds(&mut self, case: &Case, report: &Report) {
        let numbers = 3 * report.entries.len();
        if numbers > 3 * (case.file.len() - TRAILER) {
            self.differ("numbers in the index", case.index, numbers);
        }
        if report.message.len() > MESSAGE {
            self.differ("message length", MESSAGE, report.message.len());
        }
    }

    /// Every breach stands at a record that its rule speaks of and names a name of that record.
    fn check_places(&mut self, case: &Case) {
        for breach in second::all_breaches(&case.file, case.index).unwrap_or_default() {
            if !fits_place(&case.file, &breach) {
                self.differ("place", "a record that fits the rule", breach);
            }
        }
    }

    /// Verdict and text, on the decoded story and on the one that was encoded.
    fn compare_verdict(&mut self, case: &Case, story: &ParsedStory, report: &Report) {
        let text = report.breach.map(|_| report.message.clone());
        let original = oracle::verdict(story).map(String::into_bytes);
        if original != text {
            self.differ("verdict", shown(&original), shown(&text));
        }
        if let Some(encoded) = &case.story {
            let before = oracle::verdict(encoded).map(String::into_bytes);
            if before != original {
                self.differ("verdict before encoding", shown(&before), shown(&original));
            }
        }
    }

    /// The first breach of each step instance, whatever stands earlier.
    fn compare_steps(&mut self, case: &Case, story: &ParsedStory, report: &Report) {
        let breaches = second::all_breaches(&case.file, case.index).unwrap_or_default();
        if breaches.first() != report.breach.as_ref() {
            self.differ("first of all breaches", report.breach, breaches.first());
        }
        let texts = oracle::step_texts(story);
        for (instance, expected) in (0..).zip(&texts) {
            let first = breaches.iter().find(|one| one.instance == instance);
            let got = first.map(|one| second::message(&case.file, one));
            let expected = expected.as_ref().map(|text| text.clone().into_bytes());
            if got != expected {
                let what = format!("step instance {instance}");
                self.differ(&what, shown(&expected), shown(&got));
            }
        }
        if !ordered(&breaches, texts.len()) {
            self.differ("order of all breaches", texts.len(), &breaches);
        }
    }

    /// The spellings as a set, and each target that is looked up.
    fn compare_targets(&mut self, case: &Case, story: &ParsedStory, entries: &[Entry]) {
        let spelled = entries.iter().map(|e| second::spelling(&case.file, e));
        let reserved = ["END", "DONE", "->->"].map(|word| word.as_bytes().to_vec());
        let spellings: BTreeSet<Vec<u8>> = spelled.chain(reserved).collect();
        let valid = oracle::valid_targets(story);
        let valid: BTreeSet<Vec<u8>> = valid.into_iter().map(String::into_bytes).collect();
        if spellings != valid {
            let differing: Vec<_> = spellings.symmetric_difference(&valid).collect();
            self.differ("spellings", "the original's targets", differing);
        }
        let targets: Vec<&str> = case.targets.iter().map(String::as_str).collect();
        let texts = oracle::target_texts(story, &targets);
        for (target, text) in targets.iter().zip(texts) {
            match second::lookup(&case.file, case.index, target.as_bytes()) {
                Ok(found) => self.compare_lookup(target, &text, found),
                Err(refusal) => self.differ("lookup", "no refusal", refusal),
            }
        }
    }

    /// Function and Missing are the original's two errors; all else passes there.
    fn compare_lookup(&mut self, target: &str, text: &Option<String>, found: Lookup) {
        let expected = match &found {
            Lookup::Function => Some("Function '"),
            Lookup::Missing => Some("Divert target not found"),
            _ => None,
        };
        let agrees = match (expected, text) {
            (None, None) => true,
            (Some(start), Some(text)) => text.starts_with(start),
            _ => false,
        };
        if !agrees {
            self.differ(&format!("lookup of {target:?}"), text, &found);
        }
        self.lookups.push(found);
    }

    /// The subject's check against the second implementation.
    fn compare_subject(&mut self, case: &Case, subject: &mut dyn Subject) {
        let mut index = vec![OLD_NUMBER; case.index];
        let mut message = vec![OLD_BYTE; case.message];
        match subject.check(&case.file, &mut index, &mut message) {
            Err(error) => self.differ("subject", "an answer", error),
            Ok(Observed::Line(line)) => {
                let expected = [&second::program_line(&case.file), &b"\n"[..]].concat();
                if line != expected {
                    self.differ("line", shown(&Some(expected)), shown(&Some(line)));
                }
            }
            Ok(Observed::Returned(returned)) => {
                self.compare_returned(&returned, &index, &message);
            }
        }
    }

    /// A call's numbers and the whole of both buffers.
    fn compare_returned(&mut self, returned: &Returned, index: &[u32], message: &[u8]) {
        let expected = returned_by(&self.answer);
        if *returned != expected {
            self.differ("result", expected, returned);
        }
        let (numbers, text) = match &self.answer {
            Answer::Refused(_) => (Vec::new(), Vec::new()),
            Answer::Checked(report) => (report.entries.concat(), report.message.clone()),
        };
        if !holds(index, &numbers, OLD_NUMBER) {
            self.differ("index", numbers, index);
        }
        if !holds(message, &text, OLD_BYTE) {
            self.differ("message", text, message);
        }
    }

    /// The subject's lookups, where it has them.
    fn compare_subject_lookups(&mut self, case: &Case, subject: &mut dyn Subject) {
        for target in case.all_targets() {
            let expected = second::lookup(&case.file, case.index, target);
            let mut index = vec![OLD_NUMBER; case.index];
            match subject.lookup(&case.file, &mut index, target) {
                Err(error) => self.differ("subject", "a lookup", error),
                Ok(None) => return,
                Ok(Some(found)) => {
                    if !allowed(&expected, &found) {
                        let what = format!("lookup of {}", target.escape_ascii());
                        self.differ(&what, expected, &found);
                    }
                    self.compare_lookup_index(case, &index);
                    self.found.push(found);
                }
            }
        }
    }

    /// The index that a lookup leaves behind.
    fn compare_lookup_index(&mut self, case: &Case, index: &[u32]) {
        let entries = second::entries(&case.file, case.index).unwrap_or_default();
        let numbers = entries.concat();
        if !holds(index, &numbers, OLD_NUMBER) {
            self.differ("index after lookup", numbers, index);
        }
    }
}

/// Whether the byte at a breach's place, and its name's distance from there, fit the rule.
fn fits_place(file: &[u8], breach: &Breach) -> bool {
    let kind = file[breach.place as usize];
    let distance = breach.names[0].wrapping_sub(breach.place);
    let second_none = breach.names[1] == second::NONE;
    match (breach.rule, breach.step) {
        (1 | 2 | 8, _) => (3..=5).contains(&kind) && distance == 5 && second_none,
        (3, _) => [1, 5, 16].contains(&kind) && distance == 5 && second_none,
        (4, 6) | (5, _) => distance == 0 && second_none,
        (4 | 6 | 7, _) => kind == 13 && distance == 6 && second_none,
        (9, _) => kind == 2 && distance == 5 && second_none,
        (10, _) => kind == 15 && distance == 5 && second_none,
        (11, _) => kind == 14 && breach.names == [second::NONE; 2],
        (12, _) => distance == 5 && second_none,
        (13, _) => kind == 14 && breach.names[0] < breach.place && second_none,
        (14, _) => kind == 3 && breach.names[1] == breach.place + 5,
        (15, _) => kind == 1 && distance == 5 && second_none,
        _ => false,
    }
}

/// Bytes as text, for a difference's line.
fn shown(text: &Option<Vec<u8>>) -> String {
    match text {
        None => "accepted".to_string(),
        Some(bytes) => String::from_utf8_lossy(bytes).into_owned(),
    }
}

/// Whether breaches come by instance, place and rule, none twice, within the instances run.
fn ordered(breaches: &[Breach], instances: usize) -> bool {
    let key = |one: &Breach| (one.instance, one.place, one.rule);
    breaches.is_sorted_by(|a, b| key(a) < key(b))
        && breaches
            .iter()
            .all(|one| (one.instance as usize) < instances)
}

/// Whether a buffer starts with what was written and is old in the rest.
fn holds<T: PartialEq>(buffer: &[T], written: &[T], old: T) -> bool {
    let (start, rest) = buffer.split_at(written.len().min(buffer.len()));
    start == written && rest.iter().all(|one| *one == old)
}

/// The numbers that a call returns for an answer.
pub fn returned_by(answer: &Answer) -> Returned {
    match answer {
        Answer::Refused(refusal) => Returned::Refused(*refusal),
        Answer::Checked(report) => Returned::Checked {
            rule: report.breach.map_or(0, |breach| breach.rule),
            place: report.breach.map_or(0, |breach| breach.place),
            names: report
                .breach
                .map_or([second::NONE; 2], |breach| breach.names),
            entries: report.entries.len() as u32,
            message: report.message.len() as u32,
        },
    }
}

/// Whether a lookup's answer is one of those that may be given.
fn allowed(expected: &Result<Lookup, u8>, found: &FoundTarget) -> bool {
    match (expected, found) {
        (Err(refusal), FoundTarget::Refused(got)) => refusal == got,
        (Ok(Lookup::Pass), FoundTarget::Pass)
        | (Ok(Lookup::Function), FoundTarget::Function)
        | (Ok(Lookup::Reserved), FoundTarget::Reserved)
        | (Ok(Lookup::Missing), FoundTarget::Missing) => true,
        (Ok(Lookup::Exact(entries)), FoundTarget::Exact(entry))
        | (Ok(Lookup::Ending(entries)), FoundTarget::Ending(entry)) => entries.contains(entry),
        _ => false,
    }
}
