//! Two archives on the same stories, that of a landing before and this one: a ratio for each row.

mod row;

use crate::child::lines_within;
use crate::families::families;
use crate::report::size_shown;
use crate::sample::Sample;
use row::{Called, HEAD, Row, Side};
use std::path::PathBuf;
use std::process::Command;
use std::time::{Duration, Instant};

/// How long a process may take.
const LIMIT: Duration = Duration::from_secs(20);

/// The most rounds of a row, and the time after which no other is begun.
const ROUNDS: usize = 7;
const ENOUGH: Duration = Duration::from_secs(60);

/// How it is compared, for the report.
pub fn rule() -> String {
    let (limit, enough) = (LIMIT.as_secs(), ENOUGH.as_secs());
    format!(
        "\
## Against an earlier landing

    bench/run --against ARCHIVE

runs the archive `libqaabireed.a` of an earlier landing and that of this one (in `target/staticlib`, or in the folder that `QAABIREED_LIB_DIR` names) on the stories below, and prints a row for each story and size: both times, and this one's divided by the earlier one's. Under 1 this one takes less time.

- Both are linked to the same program, `bench/caller`, and run on the same files, with an index of 4 × (L-20) numbers, L the length of the row's longest file, so that an archive that wants another length of index than this one is run too.
- A round is one process of each, one after the other, the next round in the other order. There are {ROUNDS} rounds; none is begun once a row has taken {enough} s.
- A process measures for at least 0.2 s and three times; work under 1 ms is repeated until it lasts that long, and what takes over 1 s in its first run is not run again. It tells the least processor time that it measured.
- **The rule**: the time of an archive is the least of all its rounds, and the ratio is that of these two times. Beside it stand the least and the largest ratio of a single round: where they lie far apart, the machine was not quiet.
- Both must answer alike on every file; a row in which they do not says `answers differ` and has no ratio.
- A process that takes over {limit} s by the clock is stopped: its time is `over {limit} s`, the ratio is what it is under or over, and at larger sizes of the story this archive is not tried.
"
    )
}

/// Runs both programs on all stories and prints a row for each family and size.
pub fn compare(programs: &[String; 2]) -> Result<(), String> {
    print!("{HEAD}");
    for family in families() {
        let mut tried = [true; 2];
        for size in family.sizes {
            eprintln!("{} at {}", family.title, size_shown(*size));
            let samples = (family.make)(*size);
            let folder = written(&samples).map_err(|error| error.to_string())?;
            let call = |side: usize| {
                let mut command = Command::new(&programs[side]);
                command.arg(&folder).args(&samples[0].target);
                called(command)
            };
            let sides = sides(tried, call)?;
            tried = sides.each_ref().map(Side::was_timed);
            let row = Row {
                family: family.title,
                size: *size,
                sides,
            };
            println!("{}", row.shown());
        }
    }
    Ok(())
}

/// Writes the files of some samples to a folder of their own, beside this program.
fn written(samples: &[Sample]) -> std::io::Result<PathBuf> {
    let folder = std::env::current_exe()?.with_file_name("stories");
    match std::fs::remove_dir_all(&folder) {
        Err(error) if folder.exists() => return Err(error),
        _ => std::fs::create_dir(&folder)?,
    }
    for (number, sample) in samples.iter().enumerate() {
        std::fs::write(folder.join(format!("{number:05}.inkb")), &sample.file)?;
    }
    Ok(folder)
}

/// The rounds of both sides, as far as they are tried; each round starts with the other side.
fn sides(
    tried: [bool; 2],
    mut call: impl FnMut(usize) -> Result<Option<Called>, String>,
) -> Result<[Side; 2], String> {
    let start = Instant::now();
    let mut sides = tried.map(|tried| match tried {
        true => Side::Timed(Vec::new()),
        false => Side::NotTried,
    });
    for turn in 0..2 * ROUNDS {
        let number = (turn / 2 + turn) % 2;
        if turn % 2 == 0 && start.elapsed() > ENOUGH {
            break;
        }
        if let Side::Timed(rounds) = &mut sides[number] {
            match call(number)? {
                Some(called) => rounds.push(called),
                None => sides[number] = Side::Over,
            }
        }
    }
    Ok(sides)
}

/// What a process tells of its calls; nothing where it was stopped.
fn called(command: Command) -> Result<Option<Called>, String> {
    let written = lines_within(command, LIMIT)?;
    match (written.ended, &written.lines[..]) {
        (false, _) => Ok(None),
        (true, [line]) => Called::of(line).map(Some).ok_or(line.to_string()),
        _ => Err("a process told no time".to_string()),
    }
}

#[cfg(test)]
mod tests {
    use super::*;

    /// The calls, and the sides when that of a number is stopped.
    fn played(tried: [bool; 2], stopped: usize) -> (String, [Side; 2]) {
        let mut calls = String::new();
        let sides = sides(tried, |side| {
            calls.push_str(["b", "n"][side]);
            Ok((side != stopped).then_some(Called {
                time: Duration::from_millis(1),
                answers: 5,
            }))
        });
        (calls, sides.unwrap())
    }

    #[test]
    fn rounds_alternate_and_start_with_the_other_side() {
        let (calls, sides) = played([true; 2], 2);
        assert_eq!(calls, "bnnbbnnbbnnbbn");
        assert!(sides.iter().all(Side::was_timed));
    }

    #[test]
    fn a_side_that_is_stopped_is_not_run_again() {
        let (calls, sides) = played([true; 2], 0);
        assert_eq!(calls, "bnnnnnnn");
        assert!(matches!(&sides, [Side::Over, Side::Timed(rounds)] if rounds.len() == ROUNDS));
        let (calls, sides) = played([false, true], 2);
        assert_eq!(calls, "nnnnnnn");
        assert!(matches!(sides[0], Side::NotTried));
    }

    #[test]
    fn a_process_tells_one_line_or_is_an_error() {
        let told = |script: &str| {
            let mut command = Command::new("sh");
            command.args(["-c", script]);
            called(command)
        };
        let called = told("echo 1500 77").unwrap().unwrap();
        assert_eq!((called.time.as_nanos(), called.answers), (1500, 77));
        for script in ["echo 1500", "echo a b", "true", "echo 1 2; exit 1"] {
            assert!(told(script).is_err(), "{script}");
        }
    }
}
