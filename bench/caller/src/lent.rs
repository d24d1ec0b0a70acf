//! Buffers that are lent again and again and never cleared, and the calls over them.

use qaabireed::layout::{MESSAGE_LENGTH, TRAILER};
use qaabireed::{Answer, Lookup, check, lookup};
use std::fmt;

/// The numbers of a lent index for each byte before the trailer. A check wants three; one more is
/// lent, so that an archive that wants another length can be called too.
const NUMBERS: usize = 4;

/// An index and a message buffer.
pub struct Lent {
    index: Vec<u32>,
    message: Vec<u8>,
}

/// What was answered.
pub enum Said {
    Checked(Answer),
    LookedUp(Lookup),
}

impl fmt::Display for Said {
    /// The answer in words.
    fn fmt(&self, f: &mut fmt::Formatter<'_>) -> fmt::Result {
        match self {
            Said::Checked(answer) => answer.fmt(f),
            Said::LookedUp(answer) => answer.fmt(f),
        }
    }
}

impl Lent {
    /// Buffers that are long enough for all these files.
    pub fn for_files<'f>(files: impl Iterator<Item = &'f [u8]>) -> Self {
        let longest = files.map(<[u8]>::len).max().unwrap_or(0);
        Lent {
            index: vec![0; NUMBERS * longest.saturating_sub(TRAILER)],
            message: vec![0; MESSAGE_LENGTH],
        }
    }

    /// Looks the target up in a file, or checks the file where there is no target.
    pub fn call(&mut self, file: &[u8], target: Option<&str>) -> Said {
        match target {
            Some(target) => Said::LookedUp(lookup(file, &mut self.index, target.as_bytes())),
            None => Said::Checked(check(file, &mut self.index, &mut self.message)),
        }
    }
}

#[cfg(test)]
mod tests {
    use super::*;
    use qaabireed::{Node, Story};

    #[test]
    fn files_are_checked_and_targets_looked_up() {
        let story = Story::new().global("gold").node(Node::divert("silver"));
        let file = story.encode().unwrap();
        let mut lent = Lent::for_files([&file[..]].into_iter());
        assert_eq!(lent.index.len(), 4 * (file.len() - 20));
        let said = [None, Some("gold"), Some("silver")].map(|t| lent.call(&file, t).to_string());
        let breach = "breach 2 at 5: Divert target not found: '-> silver'";
        assert_eq!(said, [breach, "entry 0", "missing"]);
    }
}
