//! The cases of a run: story number and seed decide file, lent lengths and lookup targets.

use crate::aimed::{PAIRS, aimed, cured};
use crate::ast::ParsedStory;
use crate::damage::damaged;
use crate::encode::encode;
use crate::generate::{WILD, renamed, sound, wild};
use crate::layout::TRAILER;
use crate::limits;
use crate::random::Random;
use crate::second::{self, MESSAGE};
use crate::shapes::{asked_name, shaped};

/// One input of every implementation that is compared.
#[derive(Debug, Clone)]
pub struct Case {
    pub file: Vec<u8>,
    /// The story that was encoded, where the file is not damaged.
    pub story: Option<ParsedStory>,
    /// The length of the lent index.
    pub index: usize,
    /// The length of the lent message buffer.
    pub message: usize,
    /// The targets to look up.
    pub targets: Vec<String>,
    /// More targets for a subject that looks up: spellings of the index and what lies beside them.
    pub beside: Vec<Vec<u8>>,
}

impl Case {
    /// All targets as bytes.
    pub fn all_targets(&self) -> impl Iterator<Item = &[u8]> {
        let words = self.targets.iter().map(String::as_bytes);
        words.chain(self.beside.iter().map(Vec::as_slice))
    }
}

/// A file of more bytes than this comes once in so many limit cases.
const LONG_FILES: u64 = 60;

/// One story of so many in a run is of a shape; the others are those of `case`, in order.
const TURNS: u64 = 10;

/// The case of a number of a run.
pub fn run_case(seed: u64, number: u64) -> Case {
    let (round, turn) = (number / TURNS, number % TURNS);
    match turn + 1 {
        TURNS => shaped_case(seed, round),
        _ => case(seed, round * (TURNS - 1) + turn),
    }
}

/// The case of a story of many names and questions about them.
pub fn shaped_case(seed: u64, number: u64) -> Case {
    let mut random = Random::new(seed, !number);
    let (file, story) = intact(shaped(&mut random));
    let mut case = lent_case(&mut random, file, story);
    case.targets.extend((0..3).map(|_| asked_name(&mut random)));
    case
}

/// The case of a story number; the stored list has some, so that what a number gives stays.
pub fn case(seed: u64, number: u64) -> Case {
    let mut random = Random::new(seed, number);
    let random = &mut random;
    let round = number / 20;
    let (file, story) = match number % 20 {
        turn @ 0..=5 => {
            let pair = (round * 6 + turn) as usize % PAIRS.len();
            intact(aimed(random, PAIRS[pair].0, PAIRS[pair].1))
        }
        6 => {
            let pair = round as usize % PAIRS.len();
            intact(cured(random, PAIRS[pair].0, PAIRS[pair].1))
        }
        7..=9 => intact(wild(random)),
        10 | 11 => intact(sound(random)),
        12 | 13 => intact(renamed(random)),
        14..=18 => (damaged_file(random), None),
        _ => limit(random, round),
    };
    lent_case(random, file, story)
}

/// The case of a file, with lent lengths and lookup targets.
fn lent_case(random: &mut Random, file: Vec<u8>, story: Option<ParsedStory>) -> Case {
    let (index, message) = lent(random, file.len());
    let targets = targets(random, story.as_ref());
    let beside = beside(random, &file);
    Case {
        file,
        story,
        index,
        message,
        targets,
        beside,
    }
}

/// A story with its file.
fn intact(story: ParsedStory) -> (Vec<u8>, Option<ParsedStory>) {
    let file = encode(&story).expect("generated stories are within the limits");
    (file, Some(story))
}

/// A damaged copy of any story's file.
fn damaged_file(random: &mut Random) -> Vec<u8> {
    let file = match random.below(8) {
        0 => limits::deepest_file(random),
        1..=3 => intact(wild(random)).0,
        4 | 5 => intact(sound(random)).0,
        _ => intact(renamed(random)).0,
    };
    damaged(random, &file)
}

/// A file at or past a limit.
fn limit(random: &mut Random, round: u64) -> (Vec<u8>, Option<ParsedStory>) {
    if round % LONG_FILES == 1 {
        return (limits::long_file(random), None);
    }
    match random.below(5) {
        0 | 1 => (limits::deep_file(random), None),
        2 | 3 => (limits::short_file(random), None),
        _ => intact(limits::long_message(random)),
    }
}

/// The lengths of the lent buffers: mostly just long enough, sometimes longer or one short.
fn lent(random: &mut Random, length: usize) -> (usize, usize) {
    let enough = 3 * length.saturating_sub(TRAILER);
    let index = match random.below(25) {
        0 => enough.saturating_sub(1),
        1..=4 => enough + 1 + random.below(4),
        _ => enough,
    };
    let message = match random.below(25) {
        0 => MESSAGE - 1,
        1 => random.below(MESSAGE),
        2..=5 => MESSAGE + 1 + random.below(9),
        _ => MESSAGE,
    };
    (index, message)
}

/// Targets to look up: some of the wild pool, some of the story's own names and their ends.
fn targets(random: &mut Random, story: Option<&ParsedStory>) -> Vec<String> {
    let mut targets = vec![random.word(&WILD).to_string()];
    if let Some(story) = story {
        for flow in story.flows() {
            targets.push(flow.name.clone());
            for stitch in &flow.children {
                targets.push(stitch.name.clone());
                targets.push(format!("{}.{}", flow.name, stitch.name));
            }
        }
    }
    targets.truncate(4);
    targets
}

/// A target longer than any name; the spelling of an entry, its end, and bytes that are one off.
fn beside(random: &mut Random, file: &[u8]) -> Vec<Vec<u8>> {
    let mut beside = vec![vec![b'n'; 256 + random.below(745)]];
    let enough = 3 * file.len().saturating_sub(TRAILER);
    let entries = second::entries(file, enough).unwrap_or_default();
    if entries.is_empty() {
        return beside;
    }
    let spelling = second::spelling(file, random.pick(&entries));
    let dot = spelling.iter().position(|byte| *byte == b'.');
    let mut other = spelling.clone();
    if let Some(last) = other.last_mut() {
        *last ^= 0x80;
    }
    beside.push(spelling[dot.map_or(0, |dot| dot + 1)..].to_vec());
    beside.push(spelling[..spelling.len().saturating_sub(1)].to_vec());
    beside.push([b".", &spelling[..]].concat());
    beside.push([&spelling[..], b"."].concat());
    beside.push(other);
    beside.push(spelling);
    beside
}
