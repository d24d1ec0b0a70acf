//! `ink-check`: checks flat story files and says what is wrong with them, one line a file.

mod arguments;
mod explain;
mod inputs;
mod json;
mod progress;
mod text;
mod verdict;

use arguments::{Command, Input, Options};
use inputs::Item;
use progress::Progress;
use qaabireed::{Validator, outline};
use std::io::{BufWriter, ErrorKind, IsTerminal, Result, StdoutLock, Write, stderr, stdin, stdout};
use std::process::ExitCode;
use verdict::{Status, Verdict};

/// Runs the command; a reader that went away ends it quietly.
fn main() -> ExitCode {
    let command = match arguments::parse(std::env::args_os().skip(1)) {
        Ok(command) => command,
        Err(line) => return fail(&line),
    };
    let terminal = stdout().is_terminal();
    let mut out = BufWriter::new(stdout().lock());
    let run = run(command, &mut out, terminal).and_then(|code| out.flush().map(|()| code));
    match run {
        Ok(code) => ExitCode::from(code),
        Err(error) if error.kind() == ErrorKind::BrokenPipe => ExitCode::from(2),
        Err(error) => fail(&format!("standard output: {error}")),
    }
}

/// Says what is wrong on standard error.
fn fail(line: &str) -> ExitCode {
    let _ = writeln!(stderr(), "ink-check: {line}");
    ExitCode::from(2)
}

/// The exit status of a command; an error is one of writing its output.
fn run(command: Command, out: &mut BufWriter<StdoutLock>, terminal: bool) -> Result<u8> {
    match command {
        Command::Help => out.write_all(arguments::HELP.as_bytes()).map(|()| 0),
        Command::Version => writeln!(out, "ink-check {}", env!("CARGO_PKG_VERSION")).map(|()| 0),
        Command::Dump(Input::Standard) if stdin().is_terminal() => Ok(no_path()),
        Command::Dump(input) => dump(&input, out),
        Command::Check(options) if options.inputs.is_empty() && stdin().is_terminal() => {
            Ok(no_path())
        }
        Command::Check(options) => check(&options, out, terminal),
    }
}

/// Says that there is nothing to read, where no path is given and nothing is piped in.
fn no_path() -> u8 {
    let _ = fail("standard input is a terminal; give a file, see ink-check --help");
    2
}

/// Checks every input and writes a line for each.
fn check(options: &Options, out: &mut BufWriter<StdoutLock>, terminal: bool) -> Result<u8> {
    let items = inputs::find(&options.inputs);
    let mut progress = Progress::new(items.len());
    let mut validator = Validator::new();
    let mut status = Status::default();
    for (number, item) in items.iter().enumerate() {
        progress.show(number);
        let verdict = Verdict::of(item, &mut validator);
        status.count(&verdict);
        if options.quiet && verdict.is_accepted() {
            continue;
        }
        let line = line(options, item, &verdict);
        if terminal {
            progress.clear();
        }
        out.write_all(&line)?;
        if terminal {
            out.flush()?;
        }
    }
    progress.clear();
    Ok(status.code())
}

/// One item's line, in the form that was asked for.
fn line(options: &Options, item: &Item, verdict: &Verdict) -> Vec<u8> {
    match options.json {
        true => json::line(item.path(), verdict, options.explain),
        false => text::line(item.path(), verdict, options.explain),
    }
}

/// Writes the structure of one file, as far as it can be read.
fn dump(input: &Input, out: &mut BufWriter<StdoutLock>) -> Result<u8> {
    let item = Item::from(input.clone());
    let verdict = Verdict::of(&item, &mut Validator::new());
    let Some(file) = verdict.file() else {
        out.write_all(&text::line(item.path(), &verdict, false))?;
        return Ok(2);
    };
    out.write_all(&text::path_shown(item.path()))?;
    write!(
        out,
        ": {} bytes\n{}",
        verdict::length_shown(file),
        outline(file)
    )?;
    if let Verdict::Refused { .. } = &verdict {
        out.write_all(&text::line(item.path(), &verdict, true))?;
        return Ok(2);
    }
    Ok(0)
}
