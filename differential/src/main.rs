//! The commands: `run` compares stories, `list` prints the stored list, `stored` writes a program's files, `check` answers as `ink_check`.

use differential::cases::run_case;
use differential::compare::{compare, compare_lent};
use differential::second;
use differential::stored;
use differential::subject::{Program, Subject};
use differential::tally::Tally;
use differential::vectors;
use std::io::{Read, Write};
use std::process::ExitCode;

/// Runs the command named first.
fn main() -> ExitCode {
    let arguments: Vec<String> = std::env::args().skip(1).collect();
    match arguments.iter().map(String::as_str).collect::<Vec<_>>()[..] {
        ["run", count, seed] => match (count.parse(), seed.parse()) {
            (Ok(count), Ok(seed)) => run(count, seed),
            _ => usage(),
        },
        ["check"] => check(),
        ["list"] => put(vectors::text().as_bytes()),
        ["stored", program, folder] => write_stored(program, folder),
        _ => usage(),
    }
}

/// Writes to standard output; a reader that went away is a failure, and no more than that.
fn put(text: &[u8]) -> ExitCode {
    match std::io::stdout().write_all(text) {
        Ok(()) => ExitCode::SUCCESS,
        Err(_) => ExitCode::FAILURE,
    }
}

/// Says how to call the program.
fn usage() -> ExitCode {
    eprintln!(
        "usage: differential run N SEED | differential list | differential stored PROGRAM FOLDER | differential check <FILE"
    );
    ExitCode::from(2)
}

/// Writes what a program reads and what it must write to its folder.
fn write_stored(program: &str, folder: &str) -> ExitCode {
    let Some(files) = stored::stored(program) else {
        eprintln!("no stored files for a program {program}");
        return ExitCode::from(2);
    };
    let folder = std::path::Path::new(folder);
    for (name, bytes) in [("stdin", Some(files.input)), ("stdout", files.output)] {
        let written = bytes.map(|bytes| std::fs::write(folder.join(name), bytes));
        if let Some(Err(error)) = written {
            eprintln!("{}: {error}", folder.join(name).display());
            return ExitCode::FAILURE;
        }
    }
    ExitCode::SUCCESS
}

/// Prints the second implementation's line for standard input.
fn check() -> ExitCode {
    let mut input = Vec::new();
    if let Err(error) = std::io::stdin().take(4097).read_to_end(&mut input) {
        eprintln!("{error}");
        return ExitCode::FAILURE;
    }
    put(&[&second::program_line(&input), &b"\n"[..]].concat())
}

/// The library, where the build has linked it.
fn library() -> Option<Box<dyn Subject>> {
    #[cfg(qaabireed_library)]
    return Some(Box::new(differential::library::Library::default()));
    #[cfg(not(qaabireed_library))]
    None
}

/// Compares so many stories of a seed.
fn run(count: u64, seed: u64) -> ExitCode {
    let mut program = match Program::find() {
        Ok(program) => program,
        Err(error) => {
            eprintln!("{error}");
            return ExitCode::from(2);
        }
    };
    let mut library = library();
    let program_title = program.as_ref().map(Subject::title);
    let program_title =
        program_title.unwrap_or("none (no INK_CHECK, no program built)".to_string());
    let library_title = library.as_ref().map(|library| library.title());
    let library_title =
        library_title.unwrap_or("none (no QAABIREED_LIB_DIR, no archive built)".to_string());
    put(format!("program: {program_title}\nlibrary: {library_title}\n").as_bytes());
    let mut tally = Tally::default();
    for number in 0..count {
        let case = run_case(seed, number);
        let subject = program.as_mut().map(|program| program as &mut dyn Subject);
        let mut outcome = compare(&case, subject);
        if let Some(library) = &mut library {
            let lent = compare_lent(&case, library.as_mut());
            tally.count_lent(&lent);
            outcome.differences.extend(lent.differences);
        }
        tally.count(number, &case.file, &outcome);
    }
    let written = put((tally.report() + "\n").as_bytes());
    match tally.good() {
        true => written,
        false => ExitCode::FAILURE,
    }
}
