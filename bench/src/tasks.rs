//! The three things that are timed on the samples of a cell.

use crate::sample::Sample;
use caller::lent::{Lent, Said};
use differential::ast::ParsedStory;
use differential::decode::decode_only;
use differential::error::CompilerError;
use differential::validator::{oracle, validate};
use qaabireed::{Answer, Found, Lookup};
use std::hint::black_box;

/// What is timed, in the order of its columns.
#[derive(Debug, Clone, Copy, PartialEq, Eq, PartialOrd, Ord)]
pub enum Subject {
    /// The original on its tree; damaged files have none.
    Tree,
    /// The original from the bytes: decoding and validating.
    Bytes,
    /// This check, or this lookup.
    Check,
}

impl Subject {
    /// All subjects.
    pub const ALL: [Subject; 3] = [Subject::Tree, Subject::Bytes, Subject::Check];

    /// The word for a subject.
    pub fn word(self) -> &'static str {
        match self {
            Subject::Tree => "tree",
            Subject::Bytes => "bytes",
            Subject::Check => "check",
        }
    }

    /// The subject of a word.
    pub fn of(word: &str) -> Option<Subject> {
        Subject::ALL.into_iter().find(|one| one.word() == word)
    }

    /// Whether it can be run on some samples.
    pub fn runs_on(self, samples: &[Sample]) -> bool {
        self != Subject::Tree || samples.iter().all(|sample| sample.story.is_some())
    }
}

/// A subject on the samples of a cell.
pub struct Task<'s> {
    subject: Subject,
    samples: &'s [Sample],
    lent: Lent,
}

/// What a subject answers.
enum Judged {
    Original(Result<(), CompilerError>),
    /// The number by which the original's decoder refuses.
    Undecoded(u8),
    Here(Said),
}

impl<'s> Task<'s> {
    /// A subject on some samples, with buffers for the longest of them.
    pub fn new(subject: Subject, samples: &'s [Sample]) -> Self {
        let files = samples.iter().map(|sample| sample.file.as_slice());
        Task {
            subject,
            samples,
            lent: Lent::for_files(files),
        }
    }

    /// One run over all samples.
    pub fn run(&mut self) {
        for sample in self.samples {
            black_box(self.judge(black_box(sample)));
        }
    }

    /// One run over all samples, with the verdict of each.
    pub fn verdicts(&mut self) -> Vec<String> {
        let samples = self.samples.iter();
        let verdicts = samples.map(|sample| said(&self.judge(sample), sample.target.as_deref()));
        verdicts.collect()
    }

    /// What is answered of one sample.
    fn judge(&mut self, sample: &Sample) -> Judged {
        let target = sample.target.as_deref();
        match (self.subject, &sample.story) {
            (Subject::Check, _) => Judged::Here(self.lent.call(&sample.file, target)),
            (Subject::Tree, Some(story)) => Judged::Original(original(story, target)),
            _ => match decode_only(&sample.file) {
                Ok(story) => Judged::Original(original(&story, target)),
                Err(refusal) => Judged::Undecoded(refusal),
            },
        }
    }
}

/// What the original says of a story, or of a target in it.
fn original(story: &ParsedStory, target: Option<&str>) -> Result<(), CompilerError> {
    match target {
        Some(target) => oracle::target(story, target),
        None => validate(story),
    }
}

/// An answer in the words of the original; a target that is found is accepted.
fn said(judged: &Judged, target: Option<&str>) -> String {
    use {Answer::*, Judged::*};
    match judged {
        Original(Err(error)) => error.message().to_string(),
        Here(Said::Checked(Breach(breach))) => breach.to_string(),
        Here(Said::LookedUp(Lookup::Answered { found, .. })) if *found == Found::Missing => {
            let target = target.unwrap_or_default();
            format!("Divert target not found: '-> {target}'")
        }
        Undecoded(number) => format!("refused {number}"),
        Here(Said::Checked(Refused(refusal)) | Said::LookedUp(Lookup::Refused(refusal))) => {
            format!("refused {}", refusal.number())
        }
        Original(Ok(())) | Here(Said::Checked(Accepted { .. }) | Said::LookedUp(_)) => {
            "accepted".to_string()
        }
    }
}
