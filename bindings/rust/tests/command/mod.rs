//! What tests of the command line share: the real executable, run in a folder of its own.

#![allow(dead_code)]

use qaabireed::{Node, Story};
use std::fs::{create_dir_all, remove_dir_all, write};
use std::io::Write;
use std::path::{Path, PathBuf};
use std::process::{Child, Command, Output, Stdio};
use std::sync::atomic::{AtomicU32, Ordering};
use std::sync::mpsc::{RecvTimeoutError, channel};
use std::thread::spawn;
use std::time::Duration;

/// How long a run may take.
const LIMIT: Duration = Duration::from_secs(30);

/// A folder of its own for a test, removed at its end.
pub struct Folder(pub PathBuf);

impl Folder {
    /// An empty folder.
    pub fn new() -> Self {
        static NUMBER: AtomicU32 = AtomicU32::new(0);
        let number = NUMBER.fetch_add(1, Ordering::Relaxed);
        let name = format!("ink-check-{}-{number}", std::process::id());
        let path = std::env::temp_dir().join(name);
        create_dir_all(&path).unwrap();
        Folder(path)
    }

    /// The folder with these files in it.
    pub fn with(files: &[(&str, Vec<u8>)]) -> Self {
        let folder = Folder::new();
        for (name, bytes) in files {
            let path = folder.0.join(name);
            create_dir_all(path.parent().unwrap()).unwrap();
            write(path, bytes).unwrap();
        }
        folder
    }

    /// Runs the program in the folder.
    pub fn run(&self, arguments: &[&str]) -> Ran {
        run(&self.0, arguments, b"")
    }
}

impl Drop for Folder {
    fn drop(&mut self) {
        let _ = remove_dir_all(&self.0);
    }
}

/// What a run wrote, and its exit status.
#[derive(Debug, PartialEq, Eq)]
pub struct Ran {
    pub output: String,
    pub errors: String,
    pub status: i32,
}

impl Ran {
    /// Holds a run to its output and status; nothing is written to standard error.
    pub fn assert(&self, output: &str, status: i32) {
        assert_eq!((self.output.as_str(), self.status), (output, status));
        assert_eq!(self.errors, "");
    }
}

/// The program in a folder.
pub fn program(folder: &Path) -> Command {
    let mut command = Command::new(env!("CARGO_BIN_EXE_ink-check"));
    command.current_dir(folder).stdin(Stdio::piped());
    command.stdout(Stdio::piped()).stderr(Stdio::piped());
    command
}

/// Runs the program with some standard input.
pub fn run(folder: &Path, arguments: &[&str], input: &[u8]) -> Ran {
    let mut process = program(folder).args(arguments).spawn().unwrap();
    // A program that does not read its input may end before it is written.
    let _ = process.stdin.take().unwrap().write_all(input);
    finished(process)
}

/// What a program writes until it ends; one that does not end is stopped, which is no exit status.
pub fn finished(process: Child) -> Ran {
    let number = process.id().to_string();
    let (ended, waiting) = channel::<()>();
    let guard = spawn(move || {
        if waiting.recv_timeout(LIMIT) == Err(RecvTimeoutError::Timeout) {
            let _ = Command::new("kill").args(["-9", &number]).status();
        }
    });
    let output = process.wait_with_output().unwrap();
    drop(ended);
    guard.join().unwrap();
    ran(output)
}

/// A run's output as text.
pub fn ran(output: Output) -> Ran {
    Ran {
        output: String::from_utf8_lossy(&output.stdout).into_owned(),
        errors: String::from_utf8_lossy(&output.stderr).into_owned(),
        status: output.status.code().expect("it ended by itself"),
    }
}

/// The file of the empty story.
pub fn accepted() -> Vec<u8> {
    Story::new().encode().unwrap()
}

/// The file of a root that diverts to a target that is not there.
pub fn broken(target: impl Into<qaabireed::Name>) -> Vec<u8> {
    let divert = Node::divert(target.into());
    Story::new().node(divert).encode().unwrap()
}
