//! Drives the real executable with a terminal as its standard error: the progress line.

#![cfg(target_os = "linux")]

mod command;

use command::{Folder, accepted, program};
use std::ffi::{CStr, c_char, c_int};
use std::fs::File;
use std::io::{Read, Write};
use std::os::fd::{AsRawFd, FromRawFd};
use std::process::{Command, Stdio};
use std::thread::{sleep, spawn};
use std::time::Duration;

unsafe extern "C" {
    fn posix_openpt(flags: c_int) -> c_int;
    fn grantpt(terminal: c_int) -> c_int;
    fn unlockpt(terminal: c_int) -> c_int;
    fn ptsname_r(terminal: c_int, name: *mut c_char, length: usize) -> c_int;
}

/// Read and write, and no controlling terminal.
const FLAGS: c_int = 0o2 | 0o400;

/// A terminal: the side that is read here, and the side that a program writes to.
fn terminal() -> Option<(File, File)> {
    let mut name = [0; 64];
    // SAFETY: the number is checked before it is used and belongs to the file that is made of it;
    // the name's buffer comes with its length.
    let read = unsafe {
        let number = posix_openpt(FLAGS);
        if number < 0 {
            return None;
        }
        let read = File::from_raw_fd(number);
        let ready = grantpt(number) == 0 && unlockpt(number) == 0;
        if !ready || ptsname_r(read.as_raw_fd(), name.as_mut_ptr(), name.len()) != 0 {
            return None;
        }
        read
    };
    let bytes = name.map(|byte| byte as u8);
    let path = CStr::from_bytes_until_nul(&bytes).ok()?.to_str().ok()?;
    let write = File::options().write(true).open(path).ok()?;
    Some((read, write))
}

/// What a terminal shows of a run over so many paths, one of which is a pipe that gives its file late.
fn shown(count: usize) -> Option<String> {
    let folder = Folder::with(&[("good", accepted())]);
    let pipe = folder.0.join("late");
    let made = Command::new("mkfifo").arg(&pipe).status().ok()?;
    let (mut read, write) = made.success().then(terminal)??;
    let mut paths = vec!["good"; count - 1];
    paths.insert(count / 2, "late");
    let mut command = program(&folder.0);
    command.args(&paths).stderr(write).stdout(Stdio::null());
    let mut process = command.spawn().ok()?;
    // The program's side stays open in `command` until here; then reading ends with the program.
    drop(command);
    let writer = spawn(move || {
        let mut file = File::options().write(true).open(pipe).unwrap();
        sleep(Duration::from_millis(300));
        file.write_all(&accepted()).unwrap();
    });
    let mut text = Vec::new();
    // On Linux the last read is an error once nobody has the other side.
    let _ = read.read_to_end(&mut text);
    writer.join().unwrap();
    assert_eq!(process.wait().unwrap().code(), Some(0));
    Some(String::from_utf8_lossy(&text).into_owned())
}

#[test]
fn a_long_run_over_many_files_shows_how_far_it_is_and_takes_it_away() {
    let Some(text) = shown(40) else {
        return; // this system has no terminals or pipes
    };
    assert_eq!(text, "\r\x1b[K21 of 40 files checked\r\x1b[K");
}

#[test]
fn a_run_over_few_files_shows_nothing() {
    if let Some(text) = shown(19) {
        assert_eq!(text, "");
    }
}
