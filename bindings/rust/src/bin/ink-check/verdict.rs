//! What is found out about one item, and the exit status of all.

use crate::inputs::Item;
use qaabireed::layout::{LONGEST_FILE, TRAILER};
use qaabireed::{Answer, Breach, Refusal, Validator};
use std::fs::File;
use std::io::{Read, Result, stdin};

/// What is found out about one item.
pub enum Verdict {
    Accepted {
        file: Vec<u8>,
        entries: u32,
    },
    Breach {
        file: Vec<u8>,
        breach: Breach,
    },
    Refused {
        file: Vec<u8>,
        refusal: Refusal,
    },
    /// Nothing could be read, and why.
    Unreadable(String),
}

impl Verdict {
    /// Reads and checks an item.
    pub fn of(item: &Item, validator: &mut Validator) -> Verdict {
        let read = match item {
            Item::Unreadable(_, reason) => return Verdict::Unreadable(reason.clone()),
            Item::Standard => bounded(stdin().lock()),
            Item::File(path) => File::open(path).and_then(bounded),
        };
        let file = match read {
            Ok(file) => file,
            Err(error) => return Verdict::Unreadable(error.to_string()),
        };
        match validator.check_bytes(&file) {
            Answer::Accepted { entries } => Verdict::Accepted { file, entries },
            Answer::Breach(breach) => Verdict::Breach { file, breach },
            Answer::Refused(refusal) => Verdict::Refused { file, refusal },
        }
    }

    /// Whether the story is accepted.
    pub fn is_accepted(&self) -> bool {
        matches!(self, Verdict::Accepted { .. })
    }

    /// The bytes that were read; of a file that is too long, its start.
    pub fn file(&self) -> Option<&[u8]> {
        match self {
            Verdict::Accepted { file, .. }
            | Verdict::Breach { file, .. }
            | Verdict::Refused { file, .. } => Some(file),
            Verdict::Unreadable(_) => None,
        }
    }
}

/// A refusal in words, with the file's length where that is at fault.
pub fn reason(refusal: Refusal, file: &[u8]) -> String {
    let range = format!("a story file has {TRAILER} to {LONGEST_FILE}");
    match (refusal, file.len()) {
        (Refusal::Length, 0) => format!("the file is empty, {range} bytes"),
        (Refusal::Length, 1) => format!("the file has 1 byte, {range}"),
        (Refusal::Length, _) => format!("the file has {} bytes, {range}", length_shown(file)),
        (Refusal::Mark, _) if is_text(file) => {
            format!("{refusal}; this is text, not an encoded story")
        }
        _ => refusal.to_string(),
    }
}

/// How many bytes a file has; of one that is too long, no more than that is known.
pub fn length_shown(file: &[u8]) -> String {
    match file.len() > LONGEST_FILE {
        true => format!("over {LONGEST_FILE}"),
        false => file.len().to_string(),
    }
}

/// Whether a file holds text, as the source of a story does.
fn is_text(file: &[u8]) -> bool {
    let text = std::str::from_utf8(file);
    text.is_ok_and(|text| !text.contains(|one: char| one.is_control() && !"\t\n\r".contains(one)))
}

/// All bytes, or one more than the longest file has.
fn bounded(source: impl Read) -> Result<Vec<u8>> {
    let mut file = Vec::new();
    source
        .take(LONGEST_FILE as u64 + 1)
        .read_to_end(&mut file)?;
    Ok(file)
}

/// What the exit status is made from.
#[derive(Default)]
pub struct Status {
    breach: bool,
    refused: bool,
}

impl Status {
    /// Takes one verdict in.
    pub fn count(&mut self, verdict: &Verdict) {
        match verdict {
            Verdict::Accepted { .. } => {}
            Verdict::Breach { .. } => self.breach = true,
            Verdict::Refused { .. } | Verdict::Unreadable(_) => self.refused = true,
        }
    }

    /// 0, 1 or 2.
    pub fn code(&self) -> u8 {
        match self {
            Status { refused: true, .. } => 2,
            Status { breach: true, .. } => 1,
            _ => 0,
        }
    }
}
