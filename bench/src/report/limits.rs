//! The limits: what this check takes on the families that have one, and which of them it does not meet.

use super::shown::{size_shown, time_shown};
use super::waited_shown;
use crate::cell::Cell;
use crate::families::{Family, Limit, NOVEL, families};
use crate::tasks::Subject;
use std::time::Duration;

/// What the section is.
pub const HEAD: &str = "\
## Stories with a limit

Stories of many names and many questions about them, and what this check takes on them at 1 MiB: how many times as long as on a novel of 1 MiB, and as on the same story at 64 KB. What was stopped does not meet its limit.

";

/// What stands above the ratios of these stories.
pub const RATIOS: &str = "\
Their ratios to the original, as above:

";

/// The section: the limits, and the table of ratios of these stories.
pub fn section(cells: &[Cell], ratios: &str) -> String {
    format!("{HEAD}{}\n{RATIOS}{ratios}", table(cells))
}

/// The sizes at which a family is measured for the limits.
pub fn sizes(family: &Family) -> Vec<usize> {
    match (family.limit, family.sizes) {
        (Some(_), [smallest, .., largest]) => vec![*smallest, *largest],
        (None, [.., largest]) if family.title == NOVEL => vec![*largest],
        _ => Vec::new(),
    }
}

/// The table of the limits, and a sentence on those that are not met.
pub fn table(cells: &[Cell]) -> String {
    let mut text = "\
| story | time | times novel | growth | limit | met |
|---|---:|---:|---:|---|---|
"
    .to_string();
    for taken in all_taken(cells) {
        let shown = |value: Option<f64>| value.map_or("-".to_string(), tenths);
        let columns = [
            taken.family.title.to_string(),
            taken.shown.clone(),
            shown(taken.of_novel),
            shown(taken.growth),
            limit_shown(taken.limit),
            if taken.is_met() { "yes" } else { "**no**" }.to_string(),
        ];
        text.push_str(&format!("| {} |\n", columns.join(" | ")));
    }
    let sentence = not_met(cells).unwrap_or("all limits are met".to_string());
    format!("{text}\nIn this run {sentence}.\n")
}

/// The limits that are not met, in one line, if there are some.
pub fn not_met(cells: &[Cell]) -> Option<String> {
    let missed = all_taken(cells).filter(|taken| !taken.is_met());
    let missed: Vec<String> = missed.map(|taken| taken.missed()).collect();
    (!missed.is_empty()).then(|| format!("limits are not met on: {}", missed.join("; ")))
}

/// What this check takes on a family at its largest size.
struct Taken {
    family: &'static Family,
    limit: Limit,
    time: Option<Duration>,
    /// The time, or how it was stopped.
    shown: String,
    /// The time divided by that on a novel of the same size, and by that at the smallest size.
    of_novel: Option<f64>,
    growth: Option<f64>,
}

/// What is taken on each family with a limit, as far as the cells tell.
fn all_taken(cells: &[Cell]) -> impl Iterator<Item = Taken> {
    families().filter_map(|family| Some(taken(cells, family, family.limit?)))
}

/// What is taken on one family.
fn taken(cells: &[Cell], family: &'static Family, limit: Limit) -> Taken {
    let time = |title: &str, size: Option<&usize>| {
        let at = |cell: &&Cell| cell.family == title && Some(&cell.size) == size;
        let cell = cells.iter().find(at)?;
        Some(cell.time(Subject::Check)?.median)
    };
    let (smallest, largest) = (family.sizes.first(), family.sizes.last());
    let taken = time(family.title, largest);
    let divided = |by: Option<Duration>| Some(taken?.div_duration_f64(by?));
    Taken {
        family,
        limit,
        time: taken,
        shown: taken.map_or_else(|| stopped_shown(cells, family), time_shown),
        of_novel: divided(time(NOVEL, largest)),
        growth: divided(time(family.title, smallest)),
    }
}

/// How long this check had run when it was stopped, and at which size.
fn stopped_shown(cells: &[Cell], family: &Family) -> String {
    let stopped = |cell: &&Cell| cell.family == family.title && cell.stopped_in().is_some();
    match cells.iter().find(stopped) {
        Some(cell) if cell.stopped_in() == Some(Subject::Check) => {
            format!("{} at {}", waited_shown(cell), size_shown(cell.size))
        }
        _ => "not run".to_string(),
    }
}

/// A factor with its tenths, so that one just over a limit is seen to be.
fn tenths(factor: f64) -> String {
    format!("{factor:.1}")
}

/// A limit in words.
fn limit_shown(limit: Limit) -> String {
    match limit {
        Limit::Times { novel, smallest } => format!("{novel} times novel, growth {smallest}"),
        Limit::Seconds(seconds) => format!("{seconds} s"),
    }
}

impl Taken {
    /// Whether all that is asked was measured and is within the limit.
    fn is_met(&self) -> bool {
        let within = |value: Option<f64>, most: u32| value.is_some_and(|one| one <= most.into());
        match self.limit {
            Limit::Times { novel, smallest } => {
                within(self.of_novel, novel) && within(self.growth, smallest)
            }
            Limit::Seconds(seconds) => within(self.time.map(|t| t.as_secs_f64()), seconds),
        }
    }

    /// What was taken, for a limit that is not met.
    fn missed(&self) -> String {
        let mut parts = vec![self.shown.clone()];
        if let Limit::Times { .. } = self.limit {
            parts.extend(
                self.of_novel
                    .map(|times| format!("{} times novel", tenths(times))),
            );
            parts.extend(
                self.growth
                    .map(|growth| format!("growth {}", tenths(growth))),
            );
        }
        format!("{} ({})", self.family.title, parts.join(", "))
    }
}

#[cfg(test)]
mod tests {
    use super::*;
    use crate::families::titled;
    use crate::measure::Timed;

    /// A cell of this check alone; without milliseconds it was stopped.
    fn cell(title: &str, size: usize, milliseconds: Option<u64>) -> Cell {
        let timed = milliseconds.map(|one| Timed::once(Duration::from_millis(one)));
        Cell {
            family: titled(title).unwrap().title,
            size,
            subjects: vec![Subject::Check],
            times: timed
                .map(|timed| (Subject::Check, timed))
                .into_iter()
                .collect(),
            waited: Duration::from_millis(119_900),
            ..Cell::default()
        }
    }

    /// A novel of 4 ms, and every family with a limit at 3 ms and 60 ms.
    fn cells() -> Vec<Cell> {
        let mut cells = vec![cell(NOVEL, 1_048_576, Some(4))];
        for family in families().filter(|family| family.limit.is_some()) {
            cells.push(cell(family.title, 65_536, Some(3)));
            cells.push(cell(family.title, 1_048_576, Some(60)));
        }
        cells
    }

    /// The cells with one of a title and a size exchanged or, with all larger ones, absent.
    fn exchanged(title: &str, size: usize, milliseconds: Option<u64>) -> Vec<Cell> {
        let mut cells = cells();
        let gone = |one: &Cell| one.size == size || milliseconds.is_none() && one.size > size;
        cells.retain(|one| one.family != title || !gone(one));
        cells.push(cell(title, size, milliseconds));
        cells
    }

    #[test]
    fn limits_that_are_met_say_so() {
        let table = table(&cells());
        let row = "| gathers | 60.0 ms | 15.0 | 20.0 | 20 times novel, growth 25 | yes |\n";
        assert!(table.contains(row), "{table}");
        assert!(table.contains("| collisions | 60.0 ms | 15.0 | 20.0 | 20 s | yes |\n"));
        assert!(
            table.ends_with("\nIn this run all limits are met.\n"),
            "{table}"
        );
        assert_eq!(not_met(&cells()), None);
    }

    #[test]
    fn each_limit_can_be_missed() {
        let missed = |title, size, time| not_met(&exchanged(title, size, time)).unwrap();
        let line = missed("relative", 1_048_576, Some(81));
        let start = "limits are not met on: relative (81.0 ms, 20.2 times novel, growth 27.0)";
        assert_eq!(line, start);
        let line = missed("relative", 65_536, Some(2));
        assert!(
            line.ends_with("on: relative (60.0 ms, 15.0 times novel, growth 30.0)"),
            "{line}"
        );
        let line = missed("collisions", 1_048_576, Some(20_001));
        assert!(line.ends_with("on: collisions (20.0 s)"), "{line}");
        let line = missed("gathers", 65_536, None);
        assert!(
            line.ends_with("on: gathers (over 119 s at 64 KB)"),
            "{line}"
        );
    }

    #[test]
    fn without_the_novel_no_limit_by_it_is_met() {
        let mut cells = cells();
        cells.remove(0);
        let table = table(&cells);
        let row = "| gathers | 60.0 ms | - | 20.0 | 20 times novel, growth 25 | **no** |\n";
        assert!(table.contains(row), "{table}");
        assert!(table.contains("| collisions | 60.0 ms | - | 20.0 | 20 s | yes |\n"));
    }

    #[test]
    fn a_novel_and_both_ends_of_each_family_are_measured() {
        let ends = |title: &str| sizes(titled(title).unwrap());
        assert_eq!(ends(NOVEL), [1_048_576]);
        assert_eq!(ends("relative"), [65_536, 1_048_576]);
        assert_eq!(ends("globals"), Vec::<usize>::new());
    }
}
