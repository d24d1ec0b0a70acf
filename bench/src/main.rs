//! Measures the original `validate` and this check on the same stories, or two archives of it.

mod against;
mod arguments;
mod cell;
mod child;
mod damage;
mod families;
mod measure;
mod report;
mod sample;
mod tasks;

use arguments::Request;
use cell::Cell;
use families::{Family, families};
use report::limits;
use std::io::Write;
use std::process::ExitCode;
use tasks::Subject;

/// Does what the arguments ask for.
fn main() -> ExitCode {
    let arguments: Vec<String> = std::env::args().skip(1).collect();
    let done = arguments::request(&arguments).and_then(|request| match request {
        Request::Report { path } => report_all(path.as_deref()),
        Request::Limits => tell_limits(),
        Request::Against { programs } => against::compare(&programs),
        Request::Cell {
            family,
            size,
            subjects,
        } => cell::tell(family, size, &subjects),
    });
    match done {
        Ok(()) => ExitCode::SUCCESS,
        Err(line) => {
            eprintln!("{line}");
            ExitCode::FAILURE
        }
    }
}

/// Measures everything, prints the report and writes it to the file that is given; says which limits are not met.
fn report_all(path: Option<&str>) -> Result<(), String> {
    let cells = cells(|family| family.sizes.to_vec(), &Subject::ALL)?;
    let report = report::report(&cells);
    let written = path.map_or(Ok(()), |path| std::fs::write(path, &report));
    let printed = put(&report);
    if let Some(line) = limits::not_met(&cells) {
        eprintln!("{line}");
    }
    written
        .and(printed)
        .map_err(|error| format!("the report was not written: {error}"))
}

/// Measures this check alone where it has a limit and prints the limits; one that is not met is an error.
fn tell_limits() -> Result<(), String> {
    let cells = cells(limits::sizes, &[Subject::Check])?;
    put(&limits::table(&cells)).map_err(|error| error.to_string())?;
    limits::not_met(&cells).map_or(Ok(()), Err)
}

/// Writes to standard output.
fn put(text: &str) -> std::io::Result<()> {
    std::io::stdout().write_all(text.as_bytes())
}

/// The cells of all families at some sizes, but none larger than one in which this check has no time.
fn cells(sizes: fn(&Family) -> Vec<usize>, subjects: &[Subject]) -> Result<Vec<Cell>, String> {
    let mut cells: Vec<Cell> = Vec::new();
    for (number, family) in families().enumerate() {
        for size in sizes(family) {
            eprintln!("{} at {}", family.title, report::size_shown(size));
            let cell = cell::measured(number, size, subjects)?;
            let stopped = cell.time(Subject::Check).is_none();
            cells.push(cell);
            if stopped {
                break;
            }
        }
    }
    Ok(cells)
}
