//! What checks and lookups answer.

use crate::rule::{Refusal, Rule};
use std::fmt;

/// What a check answers.
#[derive(Debug, Clone, PartialEq, Eq)]
pub enum Answer {
    /// No rule is broken.
    Accepted {
        /// How many entries were written to the index.
        entries: u32,
    },
    /// The first breach.
    Breach(Breach),
    /// The file or a buffer was refused; no buffer was written.
    Refused(Refusal),
}

/// The first breach of a story. Its text is that of `Display`.
#[derive(Clone, PartialEq, Eq)]
pub struct Breach {
    /// The rule that is broken.
    pub rule: Rule,
    /// Where in the file: the offending record's kind byte, name's count byte or flow's first byte.
    pub place: u32,
    /// The places of the count bytes of the names in the text, in its order.
    pub names: [Option<u32>; 2],
    /// How many entries were written to the index.
    pub entries: u32,
    /// The message's bytes.
    pub message: Vec<u8>,
}

impl fmt::Display for Breach {
    /// The exact text, with U+FFFD for what is not UTF-8 in a name.
    fn fmt(&self, f: &mut fmt::Formatter<'_>) -> fmt::Result {
        f.write_str(&String::from_utf8_lossy(&self.message))
    }
}

impl fmt::Debug for Breach {
    /// All fields, the message as text.
    fn fmt(&self, f: &mut fmt::Formatter<'_>) -> fmt::Result {
        f.debug_struct("Breach")
            .field("rule", &self.rule)
            .field("place", &self.place)
            .field("names", &self.names)
            .field("entries", &self.entries)
            .field("message", &String::from_utf8_lossy(&self.message))
            .finish()
    }
}

impl std::error::Error for Breach {}

impl fmt::Display for Answer {
    /// `accepted`, `breach R at P: TEXT` or `refused N: REASON`.
    fn fmt(&self, f: &mut fmt::Formatter<'_>) -> fmt::Result {
        match self {
            Answer::Accepted { .. } => f.write_str("accepted"),
            Answer::Breach(breach) => write_breach(breach, f),
            Answer::Refused(refusal) => write_refusal(*refusal, f),
        }
    }
}

/// Rule, place and text.
fn write_breach(breach: &Breach, f: &mut fmt::Formatter<'_>) -> fmt::Result {
    let rule = breach.rule.number();
    write!(f, "breach {rule} at {}: {breach}", breach.place)
}

/// Number and reason.
fn write_refusal(refusal: Refusal, f: &mut fmt::Formatter<'_>) -> fmt::Result {
    write!(f, "refused {}: {refusal}", refusal.number())
}

impl Answer {
    /// Whether the story is accepted.
    pub fn is_accepted(&self) -> bool {
        matches!(self, Answer::Accepted { .. })
    }

    /// The entry count of an accepted story, or why it is not accepted, for use with `?`.
    ///
    /// ```
    /// use qaabireed::{Story, Validator};
    /// # fn build() -> Result<(), Box<dyn std::error::Error>> {
    /// let entries = Validator::new().check_story(&Story::new())?.into_result()?;
    /// assert_eq!(entries, 0);
    /// # Ok(())
    /// # }
    /// # build().unwrap();
    /// ```
    pub fn into_result(self) -> Result<u32, Rejection> {
        match self {
            Answer::Accepted { entries } => Ok(entries),
            Answer::Breach(breach) => Err(Rejection::Breach(breach)),
            Answer::Refused(refusal) => Err(Rejection::Refused(refusal)),
        }
    }
}

/// Why a story is not accepted, as an error.
#[derive(Debug, Clone, PartialEq, Eq)]
pub enum Rejection {
    /// A rule is broken.
    Breach(Breach),
    /// The file or a buffer was refused.
    Refused(Refusal),
}

impl fmt::Display for Rejection {
    /// `breach R at P: TEXT` or `refused N: REASON`.
    fn fmt(&self, f: &mut fmt::Formatter<'_>) -> fmt::Result {
        match self {
            Rejection::Breach(breach) => write_breach(breach, f),
            Rejection::Refused(refusal) => write_refusal(*refusal, f),
        }
    }
}

impl std::error::Error for Rejection {}

/// What a lookup answers.
#[derive(Debug, Clone, Copy, PartialEq, Eq)]
pub enum Lookup {
    /// The target was looked up.
    Answered {
        /// What the target is.
        found: Found,
        /// How many entries were written to the index.
        entries: u32,
    },
    /// The file or the index was refused; the index was not written.
    Refused(Refusal),
}

/// What a divert's target is; an entry is its number in the index, from 0.
#[derive(Debug, Clone, Copy, PartialEq, Eq, Hash)]
pub enum Found {
    /// It is empty, "->" or starts with "$".
    Pass,
    /// It is a function's name.
    Function,
    /// It is END, DONE or ->->.
    Reserved,
    /// It is the spelling of this entry.
    Exact(u32),
    /// The spelling of this entry ends in "." and the target.
    Ending(u32),
    /// Nothing matches.
    Missing,
}

impl fmt::Display for Found {
    /// The answer in words.
    fn fmt(&self, f: &mut fmt::Formatter<'_>) -> fmt::Result {
        match self {
            Found::Pass => f.write_str("passes"),
            Found::Function => f.write_str("a function"),
            Found::Reserved => f.write_str("a reserved word"),
            Found::Exact(entry) => write!(f, "entry {entry}"),
            Found::Ending(entry) => write!(f, "ending of entry {entry}"),
            Found::Missing => f.write_str("missing"),
        }
    }
}

impl fmt::Display for Lookup {
    /// The answer in words, or `refused N: REASON`.
    fn fmt(&self, f: &mut fmt::Formatter<'_>) -> fmt::Result {
        match self {
            Lookup::Answered { found, .. } => found.fmt(f),
            Lookup::Refused(refusal) => write_refusal(*refusal, f),
        }
    }
}

impl Lookup {
    /// What was found, or the refusal, for use with `?`.
    pub fn into_result(self) -> Result<Found, Refusal> {
        match self {
            Lookup::Answered { found, .. } => Ok(found),
            Lookup::Refused(refusal) => Err(refusal),
        }
    }
}
