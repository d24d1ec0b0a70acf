//! A process that measures: its lines are read up to its end or a limit of time.

use std::io::{BufRead, BufReader};
use std::process::{Command, Stdio};
use std::sync::mpsc::{Receiver, RecvTimeoutError, channel};
use std::time::{Duration, Instant};

/// What a process wrote.
#[derive(Debug)]
pub struct Written {
    pub lines: Vec<String>,
    /// Whether it came to its end.
    pub ended: bool,
    /// How long nothing came behind the last line.
    pub waited: Duration,
}

/// The lines that a process writes, up to its end or the limit, at which it is stopped.
pub fn lines_within(mut command: Command, limit: Duration) -> Result<Written, String> {
    let started = command.stdout(Stdio::piped()).stdin(Stdio::null()).spawn();
    let mut process = started.map_err(|error| error.to_string())?;
    let output = process.stdout.take().expect("standard output is piped");
    let (sender, receiver) = channel();
    let reader = std::thread::spawn(move || {
        let lines = BufReader::new(output).lines().map_while(Result::ok);
        lines.for_each(|line| sender.send(line).unwrap_or_default());
    });
    let written = received(&receiver, Instant::now() + limit);
    if !written.ended {
        process.kill().map_err(|error| error.to_string())?;
    }
    let status = process.wait().map_err(|error| error.to_string())?;
    reader.join().expect("reading lines does not panic");
    match written.ended && !status.success() {
        true => Err(format!("a measuring process ended with {status}")),
        false => Ok(written),
    }
}

/// The lines received up to the end of all lines, or up to a time.
fn received(receiver: &Receiver<String>, until: Instant) -> Written {
    let mut lines = Vec::new();
    let mut last = Instant::now();
    loop {
        let left = until.saturating_duration_since(Instant::now());
        match receiver.recv_timeout(left) {
            Ok(line) => {
                lines.push(line);
                last = Instant::now();
            }
            Err(error) => {
                return Written {
                    lines,
                    ended: error == RecvTimeoutError::Disconnected,
                    waited: last.elapsed(),
                };
            }
        }
    }
}

#[cfg(test)]
mod tests {
    use super::*;

    /// What a shell command writes within some milliseconds.
    fn within(milliseconds: u64, script: &str) -> Result<Written, String> {
        let mut command = Command::new("sh");
        command.args(["-c", script]);
        lines_within(command, Duration::from_millis(milliseconds))
    }

    #[test]
    fn a_process_that_takes_too_long_is_stopped_and_what_it_wrote_is_kept() {
        let start = Instant::now();
        let written = within(500, "echo first; exec sleep 30").unwrap();
        assert_eq!(
            (&written.lines[..], written.ended),
            (&["first".to_string()][..], false)
        );
        assert!(written.waited > Duration::from_millis(100));
        assert!(start.elapsed() < Duration::from_secs(10));
    }

    #[test]
    fn a_process_that_ends_is_read_to_its_end() {
        let written = within(10_000, "echo a; echo b").unwrap();
        assert_eq!(
            (written.lines.join(" "), written.ended),
            ("a b".to_string(), true)
        );
        assert!(within(10_000, "echo a; exit 3").is_err());
    }
}
