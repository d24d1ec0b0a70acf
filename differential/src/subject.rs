//! The thing under test: the compiled validator as a program, and what a library would answer.

use std::io::{Error, Result, Write};
use std::path::{Path, PathBuf};
use std::process::{Command, Stdio};

/// Where the program stands when the repository has built it and `INK_CHECK` is not set.
const BUILT_PROGRAM: &str = "../target/bin/ink_check";

/// Something that checks stories.
pub trait Subject {
    /// What it is, for the report.
    fn title(&self) -> String;

    /// One check with lent buffers.
    fn check(&mut self, file: &[u8], index: &mut [u32], message: &mut [u8]) -> Result<Observed>;

    /// One lookup; a subject without lookup answers none.
    fn lookup(
        &mut self,
        _file: &[u8],
        _index: &mut [u32],
        _target: &[u8],
    ) -> Result<Option<FoundTarget>> {
        Ok(None)
    }
}

/// What a subject lets one see of a check.
#[derive(Debug, Clone, PartialEq, Eq)]
pub enum Observed {
    /// A program's output.
    Line(Vec<u8>),
    /// A call's result; the buffers show the rest.
    Returned(Returned),
}

/// The numbers that a call returns.
#[derive(Debug, Clone, PartialEq, Eq)]
pub enum Returned {
    Refused(u8),
    Checked {
        /// 0 on acceptance.
        rule: u8,
        place: u32,
        names: [u32; 2],
        entries: u32,
        message: u32,
    },
}

/// What a lookup returns.
#[derive(Debug, Clone, PartialEq, Eq)]
pub enum FoundTarget {
    Refused(u8),
    Pass,
    Function,
    Reserved,
    Exact(u32),
    Ending(u32),
    Missing,
}

/// The program that reads a file from standard input and prints one line.
pub struct Program {
    path: PathBuf,
}

impl Program {
    /// The program at a path.
    pub fn at(path: impl Into<PathBuf>) -> Program {
        Program { path: path.into() }
    }

    /// The program named by `INK_CHECK`, or the one that the repository builds, where it is there.
    pub fn find() -> Result<Option<Program>> {
        if let Some(given) = std::env::var_os("INK_CHECK") {
            let path = PathBuf::from(given);
            return match path.is_file() {
                true => Ok(Some(Program { path })),
                false => Err(Error::other(format!(
                    "INK_CHECK names no file: {}",
                    path.display()
                ))),
            };
        }
        let path = Path::new(env!("CARGO_MANIFEST_DIR")).join(BUILT_PROGRAM);
        Ok(path.is_file().then_some(Program { path }))
    }
}

impl Subject for Program {
    /// The program's path as given.
    fn title(&self) -> String {
        self.path.display().to_string()
    }

    /// Runs the program once; it has its own buffers.
    fn check(&mut self, file: &[u8], _: &mut [u32], _: &mut [u8]) -> Result<Observed> {
        let mut process = Command::new(&self.path)
            .stdin(Stdio::piped())
            .stdout(Stdio::piped())
            .spawn()?;
        let mut input = process.stdin.take().expect("standard input is piped");
        let written = input.write_all(file);
        drop(input);
        let output = process.wait_with_output()?;
        if !output.status.success() {
            return Err(Error::other(format!("ended with {}", output.status)));
        }
        if file.len() <= 4096 {
            written?;
        }
        Ok(Observed::Line(output.stdout))
    }
}
