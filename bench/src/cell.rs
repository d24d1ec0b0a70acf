//! One family at one size: measured in a process of its own, which is stopped when it takes too long.

use crate::child::lines_within;
use crate::families::{Family, families};
use crate::measure::{Timed, measure};
use crate::tasks::Subject;
use std::collections::BTreeMap;
use std::process::Command;
use std::time::Duration;

/// How long a cell may take; what is not measured by then is reported so.
pub const LIMIT: Duration = Duration::from_secs(120);

/// What is known of one family at one size.
#[derive(Debug, Clone, Default)]
pub struct Cell {
    pub family: &'static str,
    pub size: usize,
    /// The bytes of all files, and how many files they are.
    pub bytes: usize,
    pub files: usize,
    /// Whether the files have trees that the original can be run on.
    pub has_tree: bool,
    /// What was to be measured, in order.
    pub subjects: Vec<Subject>,
    /// The times; a subject that was stopped in its first run has none.
    pub times: BTreeMap<Subject, Timed>,
    /// How long the clock went on behind the last time that is known.
    pub waited: Duration,
}

impl Cell {
    /// A time, unless the subject was stopped or has nothing to run on.
    pub fn time(&self, subject: Subject) -> Option<Timed> {
        self.times.get(&subject).copied()
    }

    /// The subject in whose first run the process was stopped, if it was.
    pub fn stopped_in(&self) -> Option<Subject> {
        let mut run = self.subjects.iter().copied();
        run.find(|one| !self.times.contains_key(one) && (*one != Subject::Tree || self.has_tree))
    }

    /// The original's time: on its tree, or from the bytes of files that have none.
    pub fn original(&self) -> Option<Timed> {
        match self.has_tree {
            true => self.time(Subject::Tree),
            false => self.time(Subject::Bytes),
        }
    }

    /// Takes one line of the measuring process in.
    fn take(&mut self, line: &str) -> Result<(), String> {
        let words: Vec<&str> = line.split(' ').collect();
        let number = |at: usize| -> Option<u64> { words.get(at)?.parse().ok() };
        match (words[0], number(1), number(2), number(3)) {
            ("files", Some(bytes), Some(files), Some(trees)) => {
                (self.bytes, self.files) = (bytes as usize, files as usize);
                self.has_tree = trees == 1;
            }
            (word, Some(nanoseconds), Some(millionths), Some(rounds)) => {
                let timed = Timed {
                    median: Duration::from_nanos(nanoseconds),
                    spread: millionths as f64 / 1e6,
                    rounds: rounds as u32,
                };
                self.times.insert(Subject::of(word).ok_or(line)?, timed);
            }
            _ => return Err(line.to_string()),
        }
        Ok(())
    }
}

/// The family of a number.
fn numbered(family: usize) -> Result<&'static Family, String> {
    let found = families().nth(family);
    found.ok_or_else(|| format!("no family has the number {family}"))
}

/// Measures a family at a size in this process and writes a line for everything that is known.
pub fn tell(family: usize, size: usize, subjects: &[Subject]) -> Result<(), String> {
    let samples = (numbered(family)?.make)(size);
    let bytes: usize = samples.iter().map(|sample| sample.file.len()).sum();
    let trees = u8::from(Subject::Tree.runs_on(&samples));
    println!("files {bytes} {} {trees}", samples.len());
    let told = measure(&samples, subjects, |subject, timed| {
        let nanoseconds = timed.median.as_nanos();
        let millionths = (timed.spread * 1e6) as u64;
        let word = subject.word();
        println!("{word} {nanoseconds} {millionths} {}", timed.rounds);
    });
    told.map_err(|line| format!("the verdicts differ: {line}"))
}

/// Measures a family at a size in a process of its own, up to the limit.
pub fn measured(family: usize, size: usize, subjects: &[Subject]) -> Result<Cell, String> {
    let program = std::env::current_exe().map_err(|error| error.to_string())?;
    let mut command = Command::new(program);
    command.args(["cell", &family.to_string(), &size.to_string()]);
    command.args(subjects.iter().map(|subject| subject.word()));
    let mut cell = Cell {
        family: numbered(family)?.title,
        size,
        subjects: subjects.to_vec(),
        ..Cell::default()
    };
    let written = lines_within(command, LIMIT)?;
    written.lines.iter().try_for_each(|line| cell.take(line))?;
    cell.waited = written.waited;
    Ok(cell)
}

#[cfg(test)]
mod tests {
    use super::*;

    #[test]
    fn lines_are_taken_in_and_later_ones_prevail() {
        let mut cell = Cell::default();
        for line in ["files 4000 2 1", "tree 500 0 1", "tree 400 20000 7"] {
            cell.take(line).unwrap();
        }
        assert_eq!((cell.bytes, cell.files, cell.has_tree), (4000, 2, true));
        let tree = cell.time(Subject::Tree).unwrap();
        assert_eq!((tree.median.as_nanos(), tree.rounds), (400, 7));
        assert_eq!(tree.spread, 0.02);
        assert_eq!(cell.time(Subject::Check), None);
        assert_eq!(cell.stopped_in(), None);
        cell.subjects = Subject::ALL.to_vec();
        assert_eq!(cell.stopped_in(), Some(Subject::Bytes));
        assert!(cell.take("other 1 2 3").is_err());
        assert!(cell.take("no numbers").is_err());
    }
}
