//! What the tables show, in sentences made from the measured cells alone.

use super::shown::{factor, size_shown};
use super::{Growth, growths, ratio};
use crate::cell::{Cell, LIMIT};
use crate::measure::{ENOUGH, ONCE};
use crate::tasks::Subject;

/// By how much a power must be larger to be named.
const NOTICED: f64 = 0.3;

/// The notes.
pub fn notes(cells: &[Cell]) -> String {
    let mut lines = vec![
        compared(cells, Subject::Tree),
        compared(cells, Subject::Bytes),
    ];
    lines.push(faster_growth(cells));
    lines.extend(cells.iter().filter_map(measured_once));
    lines.extend(cells.iter().filter_map(stopped));
    let lines: Vec<String> = lines.iter().map(|line| format!("- {line}\n")).collect();
    format!("## Notes\n\n{}", lines.concat())
}

/// Where a cell stands in the tables.
fn place(cell: &Cell) -> String {
    format!("{}, {}", cell.family, size_shown(cell.size))
}

/// In how many cells this check takes longer than the original, and both ends of the ratios.
fn compared(cells: &[Cell], to: Subject) -> String {
    let ratio = |cell: &Cell| Some(ratio(cell.time(Subject::Check)?, cell.time(to)?));
    let mut ratios: Vec<(f64, &Cell)> = cells
        .iter()
        .filter_map(|cell| Some((ratio(cell)?, cell)))
        .collect();
    ratios.sort_by(|one, two| one.0.total_cmp(&two.0));
    let [(least, low), .., (most, high)] = ratios[..] else {
        return "Too little was measured to compare.".to_string();
    };
    let slower = ratios.iter().filter(|(ratio, _)| *ratio > 1.0).count();
    let original = title(to);
    format!(
        "Beside {original}, this check takes longer in {slower} of {} measured cells; the ratios go from {} ({}) to {} ({}).",
        ratios.len(),
        factor(least),
        place(low),
        factor(most),
        place(high)
    )
}

/// The steps in which this check's time grows with a larger power than the original's.
fn faster_growth(cells: &[Cell]) -> String {
    let faster = |growth: &Growth| match growth.powers() {
        [Some(original), Some(check)] => check > original + NOTICED,
        _ => false,
    };
    let cells: Vec<&Cell> = cells.iter().collect();
    let steps = growths(&cells).filter(faster).map(|growth| {
        let sizes = [growth.less.size, growth.more.size].map(size_shown);
        format!("{} from {} to {}", growth.less.family, sizes[0], sizes[1])
    });
    let steps: Vec<String> = steps.collect();
    match steps.is_empty() {
        true => {
            format!("In no step does its power of growth exceed the original's by over {NOTICED}.")
        }
        false => format!(
            "Its power of growth exceeds the original's by over {NOTICED} in: {}.",
            steps.join("; ")
        ),
    }
}

/// Says which subjects of a cell have one measurement.
fn measured_once(cell: &Cell) -> Option<String> {
    let once = cell.times.iter().filter(|(_, timed)| timed.rounds == 1);
    let once: Vec<&str> = once.map(|(subject, _)| title(*subject)).collect();
    let seconds = [ONCE, ENOUGH].map(|limit| limit.as_secs());
    (!once.is_empty() && cell.times.contains_key(&Subject::Check)).then(|| {
        format!(
            "{}: measured once, since a run takes over {} s, a round of all over {} s, or the cell was stopped: {}.",
            place(cell),
            seconds[0],
            seconds[1],
            once.join(", ")
        )
    })
}

/// Says which subjects of a cell have no time at all.
fn stopped(cell: &Cell) -> Option<String> {
    let absent = Subject::ALL.into_iter().filter(|subject| {
        let runs = *subject != Subject::Tree || cell.has_tree;
        runs && !cell.times.contains_key(subject)
    });
    let absent: Vec<&str> = absent.map(title).collect();
    let seconds = LIMIT.as_secs();
    (!absent.is_empty()).then(|| {
        format!(
            "{}: stopped after {seconds} s, so that there is no time for: {}; no larger size was tried.",
            place(cell),
            absent.join(", ")
        )
    })
}

/// A subject in words.
fn title(subject: Subject) -> &'static str {
    match subject {
        Subject::Tree => "the original on its tree",
        Subject::Bytes => "the original from the bytes",
        Subject::Check => "this check",
    }
}

#[cfg(test)]
mod tests {
    use super::*;
    use crate::measure::Timed;
    use std::time::Duration;

    /// A cell of 1 or 2 KB with times of the tree and of this check in seconds.
    fn cell(kilobytes: usize, tree: u64, check: Option<u64>) -> Cell {
        let rounds = |seconds: u64| if seconds > 20 { 1 } else { 5 };
        let timed = |seconds: u64| Timed {
            rounds: rounds(seconds),
            ..Timed::once(Duration::from_secs(seconds))
        };
        let mut times: std::collections::BTreeMap<_, _> = [(Subject::Tree, timed(tree))].into();
        times.insert(Subject::Bytes, timed(2 * tree));
        times.extend(check.map(|seconds| (Subject::Check, timed(seconds))));
        Cell {
            family: "novel",
            size: 1024 * kilobytes,
            bytes: 1024 * kilobytes,
            files: 1,
            has_tree: true,
            subjects: Subject::ALL.to_vec(),
            times,
            waited: Duration::from_secs(9),
        }
    }

    #[test]
    fn slower_cells_and_faster_growth_are_named() {
        let notes = notes(&[cell(1, 2, Some(1)), cell(2, 4, Some(8))]);
        let lines = "\
## Notes

- Beside the original on its tree, this check takes longer in 1 of 2 measured cells; the ratios go from 0.50 (novel, 1 KB) to 2.0 (novel, 2 KB).
- Beside the original from the bytes, this check takes longer in 0 of 2 measured cells; the ratios go from 0.25 (novel, 1 KB) to 1.0 (novel, 2 KB).
- Its power of growth exceeds the original's by over 0.3 in: novel from 1 KB to 2 KB.
";
        assert_eq!(notes, lines);
    }

    #[test]
    fn cells_that_were_run_once_or_stopped_are_named() {
        let once = notes(&[cell(1, 2, Some(2)), cell(2, 4, Some(30))]);
        let line = "- novel, 2 KB: measured once, since a run takes over 20 s, a round of all over 10 s, or the cell was stopped: this check.\n";
        assert!(once.contains(line), "{once}");
        let stopped = notes(&[cell(1, 2, Some(2)), cell(2, 4, None)]);
        let line = "- novel, 2 KB: stopped after 120 s, so that there is no time for: this check; no larger size was tried.\n";
        assert!(stopped.contains(line), "{stopped}");
    }
}
