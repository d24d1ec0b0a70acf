//! A validator that owns its buffers.

use crate::answer::{Answer, Lookup};
use crate::encode::EncodeError;
use crate::entry::{Entry, entries};
use crate::layout::{LONGEST_FILE, MESSAGE_LENGTH, index_length};
use crate::library;
use crate::story::Story;

/// Checks stories and keeps its buffers from one to the next.
///
/// ```
/// use qaabireed::Validator;
///
/// let mut validator = Validator::new();
/// assert_eq!(validator.check_bytes(b"").to_string().split(':').next(), Some("refused 1"));
/// ```
#[derive(Debug, Clone, Default)]
pub struct Validator {
    index: Vec<u32>,
    message: Vec<u8>,
    entries: u32,
}

impl Validator {
    /// A validator; its buffers grow with the files that it is given.
    pub fn new() -> Self {
        Validator::default()
    }

    /// Checks the bytes of a story file.
    pub fn check_bytes(&mut self, file: &[u8]) -> Answer {
        self.fit(file);
        let answer = library::check(file, &mut self.index, &mut self.message);
        self.entries = match &answer {
            Answer::Accepted { entries } => *entries,
            Answer::Breach(breach) => breach.entries,
            Answer::Refused(_) => 0,
        };
        answer
    }

    /// Encodes a story and checks it.
    pub fn check_story(&mut self, story: &Story) -> Result<Answer, EncodeError> {
        Ok(self.check_bytes(&story.encode()?))
    }

    /// Looks up what a divert to a target would reach.
    pub fn lookup_bytes(&mut self, file: &[u8], target: &[u8]) -> Lookup {
        self.fit(file);
        let answer = library::lookup(file, &mut self.index, target);
        self.entries = match answer {
            Lookup::Answered { entries, .. } => entries,
            Lookup::Refused(_) => 0,
        };
        answer
    }

    /// The entries that the last call wrote, in order.
    pub fn entries(&self) -> impl Iterator<Item = Entry> {
        entries(&self.index, self.entries)
    }

    /// Makes the buffers long enough; a file that is refused for its length needs none.
    fn fit(&mut self, file: &[u8]) {
        let index = index_length(file.len().min(LONGEST_FILE));
        if self.index.len() < index {
            self.index.resize(index, 0);
        }
        self.message.resize(MESSAGE_LENGTH, 0);
    }
}
