//! A second implementation, written from the definition alone: refusals, index, steps, texts, lookup.

mod index;
mod kept;
mod reader;
mod search;
mod steps;
mod texts;
mod walks;

pub use index::{Entry, NONE, spelling};
pub use steps::Breach;
pub use texts::message;

use search::Known;

/// The shortest message buffer that is not refused.
pub const MESSAGE: usize = 640;

/// What a check returns.
#[derive(Debug, Clone, PartialEq, Eq)]
pub enum Answer {
    Refused(u8),
    Checked(Report),
}

/// The answer of a check that is not refused, with what it writes.
#[derive(Debug, Clone, PartialEq, Eq)]
pub struct Report {
    /// The first breach, or none when the story is accepted.
    pub breach: Option<Breach>,
    /// The entries; the numbers of the index are theirs, in order.
    pub entries: Vec<Entry>,
    /// The bytes written to the message buffer.
    pub message: Vec<u8>,
}

/// What a lookup finds, with every entry that it may name.
#[derive(Debug, Clone, PartialEq, Eq)]
pub enum Lookup {
    Pass,
    Function,
    Reserved,
    Exact(Vec<u32>),
    Ending(Vec<u32>),
    Missing,
}

/// The check of any bytes with lent buffers of these lengths.
pub fn check(file: &[u8], index: usize, message: usize) -> Answer {
    match checked(file, index, message) {
        Ok(report) => Answer::Checked(report),
        Err(refusal) => Answer::Refused(refusal),
    }
}

/// Why a file is not readable, or nothing where it is.
pub fn refusal(file: &[u8]) -> Option<u8> {
    reader::read(file).err()
}

/// What reading a file meets: why it is not readable, how many records were met up to there, and the numbers kept of them.
#[derive(Debug, Clone, PartialEq, Eq)]
pub struct Kept {
    pub refusal: Option<u8>,
    pub met: usize,
    pub numbers: Vec<u32>,
}

/// Reads a file as far as it can be read.
pub fn kept(file: &[u8]) -> Kept {
    let (story, met) = reader::read_met(file);
    Kept {
        refusal: story.err(),
        met: met.len(),
        numbers: kept::numbers(file, &met),
    }
}

/// All breaches that stand, in order, or the refusal (8 is not among them).
pub fn all_breaches(file: &[u8], index: usize) -> Result<Vec<Breach>, u8> {
    let story = readable(file, index)?;
    let known = Known::new(&story, file, &index::entries(&story));
    Ok(steps::breaches(&story, &known))
}

/// The index that a check or lookup writes, or the refusal (8 is not among them).
pub fn entries(file: &[u8], index: usize) -> Result<Vec<Entry>, u8> {
    let story = readable(file, index)?;
    Ok(index::entries(&story))
}

/// The lookup of a target of any bytes.
pub fn lookup(file: &[u8], index: usize, target: &[u8]) -> Result<Lookup, u8> {
    let story = readable(file, index)?;
    let known = Known::new(&story, file, &index::entries(&story));
    Ok(known.lookup(target))
}

/// Reads the file and judges the index's length.
fn readable(file: &[u8], index: usize) -> Result<reader::Story<'_>, u8> {
    let story = reader::read(file)?;
    if index < 3 * (file.len() - 20) {
        return Err(7);
    }
    Ok(story)
}

/// The check with its refusal as an error.
fn checked(file: &[u8], index: usize, message: usize) -> Result<Report, u8> {
    let story = readable(file, index)?;
    if message < MESSAGE {
        return Err(8);
    }
    let entries = index::entries(&story);
    let known = Known::new(&story, file, &entries);
    let breach = steps::breaches(&story, &known).into_iter().next();
    let message = match &breach {
        None => Vec::new(),
        Some(breach) => texts::message(file, breach),
    };
    Ok(Report {
        breach,
        entries,
        message,
    })
}

/// The line that the program prints for an input, without its final 0x0A.
pub fn program_line(input: &[u8]) -> Vec<u8> {
    if input.len() > 4096 {
        return b"refused 1".to_vec();
    }
    line(&check(input, 3 * 4076, MESSAGE))
}

/// An answer as the program prints it.
pub fn line(answer: &Answer) -> Vec<u8> {
    match answer {
        Answer::Refused(refusal) => format!("refused {refusal}").into_bytes(),
        Answer::Checked(Report { breach: None, .. }) => b"accepted".to_vec(),
        Answer::Checked(Report {
            breach: Some(breach),
            message,
            ..
        }) => {
            let head = format!("breach {} at {}: ", breach.rule, breach.place);
            [head.as_bytes(), message].concat()
        }
    }
}
