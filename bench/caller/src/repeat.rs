//! Work that is run again and again, so that it can be timed.

use crate::clock::thread_time;
use std::time::Duration;

/// The least time of one measurement; shorter work is repeated.
const LEAST: Duration = Duration::from_millis(1);

/// The time for all measurements of `least`, and their fewest.
const BUDGET: Duration = Duration::from_millis(200);
const FEWEST: u32 = 3;

/// Work that takes longer in its first run is not run again by `least`.
const ONCE: Duration = Duration::from_secs(1);

/// The time of one run, out of so many in a row.
pub fn time(repetitions: u32, mut run: impl FnMut()) -> Duration {
    let start = thread_time();
    for _ in 0..repetitions {
        run();
    }
    (thread_time() - start) / repetitions
}

/// The same after a run that is not timed, so that what other work left in the caches does not count.
pub fn time_again(repetitions: u32, mut run: impl FnMut()) -> Duration {
    run();
    time(repetitions, run)
}

/// How many runs of so long each last long enough to be measured.
pub fn repetitions(once: Duration) -> u32 {
    let once = once.max(Duration::from_nanos(20));
    LEAST.as_nanos().div_ceil(once.as_nanos()) as u32
}

/// The least time of a run whose first took so long.
pub fn least(first: Duration, mut run: impl FnMut()) -> Duration {
    if first > ONCE {
        return first;
    }
    let mut least = time(1, &mut run);
    let repetitions = repetitions(least);
    let mut spent = Duration::ZERO;
    let mut done = 0;
    while spent < BUDGET || done < FEWEST {
        let once = time(repetitions, &mut run);
        least = least.min(once);
        spent += once * repetitions;
        done += 1;
    }
    least
}

#[cfg(test)]
mod tests {
    use super::*;

    #[test]
    fn short_work_is_repeated_and_long_work_is_not() {
        let times = [1, 999, 400_000, 1_000_000, 3_000_000].map(Duration::from_nanos);
        assert_eq!(times.map(repetitions), [50_000, 1002, 3, 1, 1]);
    }

    #[test]
    fn the_run_before_the_timed_ones_does_not_count() {
        let slow = Duration::from_millis(20);
        let mut runs = 0;
        let time = time_again(4, || {
            runs += 1;
            let start = thread_time();
            while runs == 1 && thread_time() - start < slow {}
        });
        assert_eq!(runs, 5);
        assert!(time < slow / 4, "{time:?}");
    }

    #[test]
    fn what_took_too_long_is_not_run_again() {
        let mut runs = 0;
        let first = ONCE + Duration::from_nanos(1);
        assert_eq!(least(first, || runs += 1), first);
        assert_eq!(runs, 0);
    }

    #[test]
    fn the_least_time_is_no_longer_than_the_work() {
        let work = Duration::from_millis(3);
        let mut runs = 0;
        let time = least(ONCE, || {
            runs += 1;
            let start = thread_time();
            while thread_time() - start < work {}
        });
        assert!(time >= work && time < 2 * work, "{time:?}");
        assert!(runs > FEWEST);
    }
}
