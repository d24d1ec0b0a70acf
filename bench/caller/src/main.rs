//! Calls the archive that it is linked to on all files of a folder, and tells the least time.

use caller::clock::thread_time;
use caller::lent::Lent;
use caller::repeat::least;
use std::hash::{DefaultHasher, Hash, Hasher};
use std::hint::black_box;
use std::io::Result;
use std::process::ExitCode;

/// Runs on the folder and the target that are given.
fn main() -> ExitCode {
    let arguments: Vec<String> = std::env::args().skip(1).collect();
    let told = match &arguments[..] {
        [folder] => tell(folder, None),
        [folder, target] => tell(folder, Some(target)),
        _ => Err(std::io::Error::other("usage: caller FOLDER [TARGET]")),
    };
    match told {
        Ok(()) => ExitCode::SUCCESS,
        Err(error) => {
            eprintln!("{error}");
            ExitCode::FAILURE
        }
    }
}

/// Writes one line: the nanoseconds of one run over all files, and a number made of the answers.
fn tell(folder: &str, target: Option<&str>) -> Result<()> {
    let files = files(folder)?;
    let mut lent = Lent::for_files(files.iter().map(Vec::as_slice));
    let start = thread_time();
    let answers = files.iter().map(|file| lent.call(file, target).to_string());
    let answers: Vec<String> = answers.collect();
    let first = thread_time() - start;
    let time = least(first, || {
        for file in &files {
            black_box(lent.call(black_box(file), target));
        }
    });
    let mut hasher = DefaultHasher::new();
    answers.hash(&mut hasher);
    println!("{} {}", time.as_nanos(), hasher.finish());
    Ok(())
}

/// The files of a folder, in the order of their names.
fn files(folder: &str) -> Result<Vec<Vec<u8>>> {
    let entries = std::fs::read_dir(folder)?;
    let paths = entries.map(|entry| entry.map(|entry| entry.path()));
    let mut paths = paths.collect::<Result<Vec<_>>>()?;
    paths.sort();
    paths.iter().map(std::fs::read).collect()
}
