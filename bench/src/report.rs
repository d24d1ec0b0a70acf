//! The report: ratios, growth, notes, and times for orientation.

pub mod limits;
mod notes;
mod shown;

use crate::against;
use crate::cell::{Cell, LIMIT};
use crate::families;
use crate::measure::Timed;
use crate::tasks::Subject;
use shown::factor;
pub use shown::{ratio_shown, size_shown, time_shown};

/// The whole report as Markdown.
pub fn report(cells: &[Cell]) -> String {
    let is_limited =
        |cell: &&Cell| families::titled(cell.family).is_some_and(|f| f.limit.is_some());
    let (limited, others): (Vec<&Cell>, Vec<&Cell>) = cells.iter().partition(is_limited);
    let parts = [
        HEAD.to_string(),
        RATIOS.to_string() + &ratios(&others),
        growth(&others),
        limits::section(cells, &ratios(&limited)),
        notes::notes(cells),
        method(),
        against::rule(),
        stories(),
        times(cells),
    ];
    parts.join("\n")
}

/// What the report is.
const HEAD: &str = "\
# Benchmarks

The original `validate` (Rust, unchanged) and this check on the same stories. Written by `bench/run`; `bench/run --print` prints it only; `bench/run --limits` measures this check alone where it has a limit, and fails where one is not met; `bench/run --against ARCHIVE` compares two landings. What counts are ratios and growth, taken within one run on one machine; times stand at the end, for orientation.
";

/// What stands above the ratios.
const RATIOS: &str = "\
## Ratios

This check's time divided by the original's: under 1 this check takes less time. **Tree**: the original is handed its tree. **Bytes**: the original's tree is first decoded from the file, as this check reads the file too.

";

/// The table of ratios.
fn ratios(cells: &[&Cell]) -> String {
    let mut text = "\
| story | size | files | tree | bytes | ± | rounds |
|---|---:|---:|---:|---:|---:|---:|
"
    .to_string();
    for cell in cells {
        let columns = [
            cell.family.to_string(),
            size_shown(cell.size),
            cell.files.to_string(),
            ratio_to(cell, Subject::Tree),
            ratio_to(cell, Subject::Bytes),
            spread_shown(cell),
            rounds_shown(cell),
        ];
        text.push_str(&format!("| {} |\n", columns.join(" | ")));
    }
    text
}

/// This check's time divided by the original's, or at least what it is over.
fn ratio_to(cell: &Cell, to: Subject) -> String {
    match (cell.time(Subject::Check), cell.time(to)) {
        (Some(check), Some(original)) => factor(ratio(check, original)),
        (None, Some(original)) => {
            let waited = Timed::once(cell.waited);
            format!("over {}", factor(ratio(waited, original)))
        }
        _ if to == Subject::Tree && !cell.has_tree => "no tree".to_string(),
        _ => "stopped".to_string(),
    }
}

/// One time divided by another.
fn ratio(one: Timed, other: Timed) -> f64 {
    one.median.div_duration_f64(other.median)
}

/// The larger spread of the two that are compared, in hundredths.
fn spread_shown(cell: &Cell) -> String {
    let spreads = [cell.time(Subject::Check), cell.original()].map(|t| t.map(|t| t.spread));
    match spreads {
        [Some(check), Some(original)] => format!("{:.0} %", 100.0 * check.max(original)),
        _ => "-".to_string(),
    }
}

/// The rounds of the subject that has the fewest.
fn rounds_shown(cell: &Cell) -> String {
    let rounds = cell.times.values().map(|timed| timed.rounds).min();
    match cell.time(Subject::Check) {
        None => "stopped".to_string(),
        Some(_) => rounds.unwrap_or(0).to_string(),
    }
}

/// The growth from one size of a family to the next.
struct Growth<'c> {
    less: &'c Cell,
    more: &'c Cell,
}

/// All growths in the order of the report.
fn growths<'c>(cells: &[&'c Cell]) -> impl Iterator<Item = Growth<'c>> {
    let pairs = cells.iter().copied().zip(cells.iter().copied().skip(1));
    pairs
        .filter(|(less, more)| less.family == more.family)
        .map(|(less, more)| Growth { less, more })
}

impl Growth<'_> {
    /// How many times longer the files are.
    fn of_bytes(&self) -> f64 {
        self.more.bytes as f64 / self.less.bytes as f64
    }

    /// How many times longer something takes.
    fn of(&self, time: impl Fn(&Cell) -> Option<Timed>) -> Option<f64> {
        Some(ratio(time(self.more)?, time(self.less)?))
    }

    /// The power of the length with which the original's and this check's time grow.
    fn powers(&self) -> [Option<f64>; 2] {
        let check = |cell: &Cell| cell.time(Subject::Check);
        let power = |growth: f64| growth.ln() / self.of_bytes().ln();
        [self.of(Cell::original), self.of(check)].map(|growth| growth.map(power))
    }
}

/// The table of growth from size to size.
fn growth(cells: &[&Cell]) -> String {
    let mut text = "\
## Growth

How many times longer it takes from one size to the next, and the power of the length that this is: 1 where twice the length takes twice the time, 2 where it takes four times as long. The original's is that on its tree; of damaged files, that from the bytes.

| story | from | to | bytes | original | this check | power, original | power, this check |
|---|---:|---:|---:|---:|---:|---:|---:|
"
    .to_string();
    for growth in growths(cells) {
        let shown = |value: Option<f64>| value.map_or("stopped".to_string(), factor);
        let power = |value: Option<f64>| value.map_or("-".to_string(), |one| format!("{one:.1}"));
        let [original, check] = growth.powers();
        let columns = [
            growth.less.family.to_string(),
            size_shown(growth.less.size),
            size_shown(growth.more.size),
            factor(growth.of_bytes()),
            shown(growth.of(Cell::original)),
            shown(growth.of(|cell| cell.time(Subject::Check))),
            power(original),
            power(check),
        ];
        text.push_str(&format!("| {} |\n", columns.join(" | ")));
    }
    text
}

/// How it was measured.
fn method() -> String {
    let once = crate::measure::ONCE.as_secs();
    let enough = crate::measure::ENOUGH.as_secs();
    let again = crate::measure::AGAIN.as_millis();
    let limit = LIMIT.as_secs();
    format!(
        "\
## How it was measured

- Both are built for release: the original by `cargo build --release` (opt-level 3) as part of the bench program, this check as the archive that `tools/archive` writes, called through the Rust crate.
- **Tree**: `validate` on the parsed story in memory. **Bytes**: the tree is decoded from the file, validated and dropped. **This check**: `check` on the file's bytes, which reads and judges them, writes the index and, on a breach, the message.
- The decoder does nothing but decode: it goes through the file once, refuses what cannot be read, and builds the original's tree with its names as strings. It is `decode_only` of `differential/`, the same code that notes the places of all fields for the comparison there, compiled without the notes.
- In the rows called lookup one target is looked up. **Tree** and **bytes** are then what the original does for that: `ValidationContext::build` on its tree and `check_target`; in the place of this check stands `lookup` on the file's bytes, which reads the whole file and writes the index.
- The buffers of this check are lent again and again and not cleared between calls; the index has 4 × (L-20) numbers, L the length of the row's longest file. Building stories, encoding and reading files are not timed.
- Every cell has a process of its own. In first runs all must give the same verdict and text, or the same refusal, on every file.
- Then they are timed in turn in each round, each round starting with another one; work under 1 ms is repeated until it lasts that long. What took at most {again} ms in its first run is run once more before each of its measurements, untimed, so that at every size the caches are as its own last run leaves them, and not as the other's does. Times are processor time of the measuring thread, so that other processes on the machine do not count, and medians of the rounds; ± is half the distance of the quartiles, in hundredths of the median, the larger of the two compared.
- What takes over {once} s in its first run is not run again: it has 1 round. No other round is begun once all have taken {enough} s. A cell that takes over {limit} s in all is stopped, and what was known by then is reported; a time called over something, and a ratio, is then that of the time waited by the clock. Larger sizes of that story are not tried.
"
    )
}

/// What the stories are.
fn stories() -> String {
    let mut text = "## The stories\n\n| story | what it is |\n|---|---|\n".to_string();
    for family in families::families() {
        text.push_str(&format!("| {} | {} |\n", family.title, family.about));
    }
    text
}

/// The table of times.
fn times(cells: &[Cell]) -> String {
    let mut text = format!(
        "\
## Times, for orientation

{}

| story | size | bytes | original, tree | original, bytes | this check |
|---|---:|---:|---:|---:|---:|
",
        machine()
    );
    for cell in cells {
        let shown = |subject: Subject| match cell.time(subject) {
            Some(timed) => time_shown(timed.median),
            None if subject == Subject::Tree && !cell.has_tree => "no tree".to_string(),
            None if cell.stopped_in() == Some(subject) => waited_shown(cell),
            None => "not run".to_string(),
        };
        let [tree, bytes, check] = Subject::ALL.map(shown);
        let (family, size) = (cell.family, size_shown(cell.size));
        text.push_str(&format!(
            "| {family} | {size} | {} | {tree} | {bytes} | {check} |\n",
            cell.bytes
        ));
    }
    text
}

/// How long a subject had run by the clock when it was stopped.
fn waited_shown(cell: &Cell) -> String {
    format!("over {} s", cell.waited.as_secs())
}

/// The processor and the compiler.
fn machine() -> String {
    let information = std::fs::read_to_string("/proc/cpuinfo").unwrap_or_default();
    let model = information
        .lines()
        .find_map(|line| line.strip_prefix("model name"));
    let model = model.and_then(|rest| rest.split_once(':'));
    let model = model.map_or("unknown processor", |(_, model)| model.trim());
    format!("Processor: {model}; compiler: {}.", env!("COMPILER"))
}

#[cfg(test)]
mod tests {
    use super::*;
    use std::time::Duration;

    /// A cell with times in microseconds.
    fn cell(size: usize, times: &[(Subject, u64)]) -> Cell {
        let timed = |micros: u64| Timed {
            median: Duration::from_micros(micros),
            spread: 0.02,
            rounds: 9,
        };
        Cell {
            family: "novel",
            size,
            bytes: size,
            files: 1,
            has_tree: true,
            subjects: Subject::ALL.to_vec(),
            times: times
                .iter()
                .map(|(s, micros)| (*s, timed(*micros)))
                .collect(),
            waited: Duration::from_secs(96),
        }
    }

    /// Two sizes, at the second of which this check was stopped.
    fn cells() -> [Cell; 3] {
        use Subject::{Bytes, Check, Tree};
        [
            cell(4096, &[(Tree, 100), (Bytes, 200), (Check, 300)]),
            cell(16_384, &[(Tree, 400), (Bytes, 800), (Check, 4800)]),
            cell(65_536, &[(Tree, 1600), (Bytes, 4000)]),
        ]
    }

    #[test]
    fn ratios_come_before_times() {
        let report = report(&cells());
        assert!(report.contains("| novel | 4 KB | 1 | 3.0 | 1.5 | 2 % | 9 |\n"));
        assert!(report.contains("| novel | 64 KB | 1 | over 60000 | over 24000 | - | stopped |\n"));
        assert!(report.find("## Ratios") < report.find("## Times"));
        assert!(report.contains("| novel | 64 KB | 65536 | 1.6 ms | 4.0 ms | over 96 s |\n"));
    }

    #[test]
    fn growth_has_its_power() {
        let report = report(&cells());
        let row = "| novel | 4 KB | 16 KB | 4.0 | 4.0 | 16 | 1.0 | 2.0 |\n";
        assert!(report.contains(row), "{report}");
        let row = "| novel | 16 KB | 64 KB | 4.0 | 4.0 | stopped | 1.0 | - |\n";
        assert!(report.contains(row), "{report}");
    }

    #[test]
    fn the_page_has_the_text_of_this_program() {
        let page = include_str!("../../docs/BENCHMARKS.md");
        let heads = [HEAD, RATIOS, limits::HEAD, limits::RATIOS].map(str::to_string);
        for part in [&heads[..], &[method(), against::rule(), stories()]].concat() {
            assert!(page.contains(&part), "absent: {part}");
        }
    }

    #[test]
    fn nothing_of_the_machine_but_its_processor_is_told() {
        let report = report(&cells());
        let host = std::fs::read_to_string("/proc/sys/kernel/hostname").unwrap_or_default();
        let host = host.trim();
        assert!(host.len() < 4 || !report.contains(host));
        let folder = env!("CARGO_MANIFEST_DIR");
        let folders: Vec<&str> = folder.split('/').filter(|part| part.len() > 1).collect();
        let start = format!("/{}", folders.first().unwrap_or(&"home"));
        assert!(!report.contains(&start) && !report.contains("/home"));
    }
}
