//! Measures one cell: first runs, which must agree, then medians of interleaved rounds.

use crate::sample::Sample;
use crate::tasks::{Subject, Task};
use caller::clock::thread_time;
use caller::repeat::{repetitions, time, time_again};
use std::time::Duration;

/// A task whose first run takes longer is not run again.
pub const ONCE: Duration = Duration::from_secs(20);

/// A task whose first run takes no longer is run once before each of its measurements.
pub const AGAIN: Duration = Duration::from_millis(100);

/// The time for all rounds of a cell, as far as the rounds allow.
const BUDGET: Duration = Duration::from_secs(2);

/// The most rounds of a cell, and the fewest while they last under five budgets.
const MOST_ROUNDS: u32 = 101;
const FEWEST_ROUNDS: u32 = 5;

/// After this time no other round is begun, however few there were.
pub const ENOUGH: Duration = BUDGET.saturating_mul(FEWEST_ROUNDS);

/// The median of some rounds, and half the distance of the quartiles as a share of it.
#[derive(Debug, Clone, Copy, PartialEq)]
pub struct Timed {
    pub median: Duration,
    pub spread: f64,
    /// How many rounds there were; 1 also where the first run is all there is.
    pub rounds: u32,
}

impl Timed {
    /// A first run.
    pub fn once(time: Duration) -> Self {
        Timed {
            median: time,
            spread: 0.0,
            rounds: 1,
        }
    }

    /// The median and the spread of all rounds.
    fn of(mut times: Vec<Duration>) -> Self {
        times.sort();
        let at = |share: usize| times[(times.len() - 1) * share / 4];
        let distance = (at(3) - at(1)).as_secs_f64() / 2.0;
        Timed {
            median: at(2),
            spread: distance / at(2).as_secs_f64(),
            rounds: times.len() as u32,
        }
    }
}

/// A task with its times so far.
struct Timing<'s> {
    subject: Subject,
    task: Task<'s>,
    first: Duration,
    repetitions: u32,
    times: Vec<Duration>,
}

impl Timing<'_> {
    /// One measurement, and how long it took in all.
    fn measure(&mut self) -> Duration {
        let once = match self.first <= AGAIN {
            true => time_again(self.repetitions, || self.task.run()),
            false => time(self.repetitions, || self.task.run()),
        };
        self.times.push(once);
        once * self.repetitions
    }

    /// Repeats short work so often that a measurement is long enough.
    fn set_repetitions(&mut self) {
        if repetitions(self.first) > 1 {
            self.repetitions = repetitions(time(1, || self.task.run()));
        }
    }

    /// What came out.
    fn timed(self) -> (Subject, Timed) {
        match self.times.is_empty() {
            true => (self.subject, Timed::once(self.first)),
            false => (self.subject, Timed::of(self.times)),
        }
    }
}

/// Measures subjects on some samples. Each time is told as soon as it is known: first runs at
/// once, medians at the end. Verdicts that differ are an error.
pub fn measure(
    samples: &[Sample],
    subjects: &[Subject],
    mut tell: impl FnMut(Subject, Timed),
) -> Result<(), String> {
    let mut timings = Vec::new();
    let mut verdicts: Option<Vec<String>> = None;
    for subject in subjects.iter().copied().filter(|s| s.runs_on(samples)) {
        let mut task = Task::new(subject, samples);
        let start = thread_time();
        let said = task.verdicts();
        let first = thread_time() - start;
        tell(subject, Timed::once(first));
        agree(verdicts.get_or_insert(said.clone()), &said)?;
        timings.push(Timing {
            subject,
            task,
            first,
            repetitions: 1,
            times: Vec::new(),
        });
    }
    run_rounds(&mut timings);
    for (subject, timed) in timings.into_iter().map(Timing::timed) {
        tell(subject, timed);
    }
    Ok(())
}

/// The first verdict that differs is an error.
fn agree(original: &[String], other: &[String]) -> Result<(), String> {
    match original.iter().zip(other).find(|(one, two)| one != two) {
        Some((one, two)) => Err(format!("\"{one}\" and \"{two}\"")),
        None => Ok(()),
    }
}

/// Runs rounds of all tasks whose first run was short enough, until the budget or the most rounds
/// are reached; each round starts with another task.
fn run_rounds(timings: &mut [Timing]) {
    let mut repeated: Vec<&mut Timing> = timings.iter_mut().filter(|t| t.first <= ONCE).collect();
    repeated.iter_mut().for_each(|one| one.set_repetitions());
    let mut spent = Duration::ZERO;
    for done in 1..=MOST_ROUNDS {
        for turn in 0..repeated.len() {
            let number = (turn + done as usize) % repeated.len();
            spent += repeated[number].measure();
        }
        let enough = done >= FEWEST_ROUNDS || spent >= ENOUGH;
        if spent >= BUDGET && enough {
            break;
        }
    }
}

#[cfg(test)]
mod tests {
    use super::*;
    use differential::story::{divert, story};

    #[test]
    fn medians_and_spreads_are_those_of_the_rounds() {
        let times = [5, 1, 2, 4, 3].map(Duration::from_millis).to_vec();
        let timed = Timed::of(times);
        assert_eq!(timed.median, Duration::from_millis(3));
        assert_eq!((timed.spread * 300.0).round(), 100.0);
        assert_eq!(timed.rounds, 5);
    }

    #[test]
    fn every_subject_is_told_first_and_at_the_end() {
        let samples = [Sample::of(story(vec![divert("END")], vec![]))];
        let mut told = Vec::new();
        measure(&samples, &Subject::ALL, |subject, timed| {
            told.push((subject, timed.rounds))
        })
        .unwrap();
        let subjects: Vec<Subject> = told.iter().map(|(subject, _)| *subject).collect();
        assert_eq!(subjects, [Subject::ALL, Subject::ALL].concat());
        assert!(told[..3].iter().all(|(_, rounds)| *rounds == 1));
        assert!(told[3..].iter().all(|(_, rounds)| *rounds >= FEWEST_ROUNDS));
    }

    #[test]
    fn what_takes_too_long_is_not_run_again() {
        let samples = [Sample::of(story(vec![divert("END")], vec![]))];
        let timing = |first: Duration| Timing {
            subject: Subject::Check,
            task: Task::new(Subject::Check, &samples),
            first,
            repetitions: 1,
            times: Vec::new(),
        };
        let slow = ONCE + Duration::from_nanos(1);
        let mut timings = [timing(slow), timing(ONCE)];
        run_rounds(&mut timings);
        let [(_, slow_timed), (_, timed)] = timings.map(Timing::timed);
        assert_eq!(slow_timed, Timed::once(slow));
        assert_eq!(timed.rounds, MOST_ROUNDS);
    }

    #[test]
    fn verdicts_that_differ_are_an_error() {
        let mut sample = Sample::of(story(vec![divert("END")], vec![]));
        sample.story = Some(story(vec![divert("nowhere")], vec![]));
        let line = measure(&[sample], &Subject::ALL, |_, _| {}).unwrap_err();
        assert!(
            line.contains("accepted") && line.contains("nowhere"),
            "{line}"
        );
    }
}
