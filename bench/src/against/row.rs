//! One row: the times of both archives on the same stories, and their ratio.

use super::LIMIT;
use crate::report::{ratio_shown, size_shown, time_shown};
use std::time::Duration;

/// What stands above the rows.
pub const HEAD: &str = "\
| story | size | before | now | now / before | least | largest | rounds |
|---|---:|---:|---:|---:|---:|---:|---:|
";

/// What one process tells: its least time, and a number made of all answers.
#[derive(Debug, Clone, Copy)]
pub struct Called {
    pub time: Duration,
    pub answers: u64,
}

impl Called {
    /// The two numbers of a line.
    pub fn of(line: &str) -> Option<Called> {
        let (time, answers) = line.split_once(' ')?;
        Some(Called {
            time: Duration::from_nanos(time.parse().ok()?),
            answers: answers.parse().ok()?,
        })
    }
}

/// One archive in a row.
#[derive(Debug)]
pub enum Side {
    /// What was told in each round.
    Timed(Vec<Called>),
    /// A process was stopped.
    Over,
    /// A process was stopped at a smaller size.
    NotTried,
}

impl Side {
    /// Whether all its processes came to their end.
    pub fn was_timed(&self) -> bool {
        matches!(self, Side::Timed(_))
    }

    /// The least of its times, or why there is none.
    fn shown(&self) -> String {
        match self {
            Side::Timed(rounds) => time_shown(least(rounds)),
            Side::Over => format!("over {} s", LIMIT.as_secs()),
            Side::NotTried => "not tried".to_string(),
        }
    }
}

/// A family at a size: the landing before and this one.
pub struct Row {
    pub family: &'static str,
    pub size: usize,
    pub sides: [Side; 2],
}

impl Row {
    /// The row as Markdown.
    pub fn shown(&self) -> String {
        let [before, now] = self.sides.each_ref().map(Side::shown);
        let (family, size) = (self.family, size_shown(self.size));
        let ratios = self.ratios().join(" | ");
        format!("| {family} | {size} | {before} | {now} | {ratios} |")
    }

    /// The ratio, the least and the largest of a round, and how many rounds there were.
    fn ratios(&self) -> [String; 4] {
        match &self.sides {
            [Side::Timed(before), Side::Timed(now)] => compared(before, now),
            [Side::Over, Side::Timed(now)] => alone(format!(
                "under {}",
                ratio_shown(least(now).div_duration_f64(LIMIT))
            )),
            [Side::Timed(before), Side::Over] => alone(format!(
                "over {}",
                ratio_shown(LIMIT.div_duration_f64(least(before)))
            )),
            _ => alone("-".to_string()),
        }
    }
}

/// What is told in place of a ratio, without rounds.
fn alone(ratio: String) -> [String; 4] {
    let none = || "-".to_string();
    [ratio, none(), none(), none()]
}

/// The least time of some rounds.
fn least(rounds: &[Called]) -> Duration {
    let times = rounds.iter().map(|called| called.time);
    times.min().unwrap_or_default()
}

/// The ratio of the least times and both ends of the rounds' ratios, unless the answers differ.
fn compared(before: &[Called], now: &[Called]) -> [String; 4] {
    let rounds = before.iter().zip(now);
    if rounds.clone().any(|(one, two)| one.answers != two.answers) {
        return alone("answers differ".to_string());
    }
    let ratios = rounds.map(|(one, two)| two.time.div_duration_f64(one.time));
    let [low, high] = [f64::min, f64::max].map(|end| ratios.clone().reduce(end).unwrap_or(1.0));
    let ratio = least(now).div_duration_f64(least(before));
    let [ratio, low, high] = [ratio, low, high].map(ratio_shown);
    [ratio, low, high, before.len().to_string()]
}

#[cfg(test)]
mod tests {
    use super::*;

    /// Rounds of so many microseconds.
    fn timed(micros: &[u64]) -> Side {
        let called = |micros: &u64| Called::of(&format!("{micros}000 9")).unwrap();
        Side::Timed(micros.iter().map(called).collect())
    }

    /// The end of a row with these sides.
    fn row(before: Side, now: Side) -> String {
        let row = Row {
            family: "novel",
            size: 4096,
            sides: [before, now],
        };
        row.shown()
    }

    #[test]
    fn the_ratio_is_that_of_the_least_times_and_has_the_rounds_beside_it() {
        let shown = row(timed(&[100, 200, 120]), timed(&[150, 80, 90]));
        let line = "| novel | 4 KB | 100.0 µs | 80.0 µs | 0.80 | 0.40 | 1.50 | 3 |";
        assert_eq!(shown, line);
    }

    #[test]
    fn what_was_stopped_or_not_tried_says_so() {
        let shown = row(Side::Over, timed(&[40_000]));
        let line = "| novel | 4 KB | over 20 s | 40.0 ms | under 0.0020 | - | - | - |";
        assert_eq!(shown, line);
        let shown = row(timed(&[40_000]), Side::Over);
        let line = "| novel | 4 KB | 40.0 ms | over 20 s | over 500 | - | - | - |";
        assert_eq!(shown, line);
        let shown = row(Side::NotTried, timed(&[40_000]));
        let line = "| novel | 4 KB | not tried | 40.0 ms | - | - | - | - |";
        assert_eq!(shown, line);
    }

    #[test]
    fn answers_that_differ_have_no_ratio() {
        let other = Called::of("100000 8").unwrap();
        let shown = row(timed(&[100]), Side::Timed(vec![other]));
        assert!(shown.ends_with("| answers differ | - | - | - |"), "{shown}");
    }
}
