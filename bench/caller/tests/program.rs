//! The program on the samples of the bindings.

use std::process::{Command, Output};

/// What the program does with some arguments.
fn run(arguments: &[&str]) -> Output {
    let mut command = Command::new(env!("CARGO_BIN_EXE_caller"));
    command.args(arguments).output().unwrap()
}

/// The two numbers of the line that it writes.
fn told(arguments: &[&str]) -> [u64; 2] {
    let output = run(arguments);
    assert!(output.status.success());
    let line = String::from_utf8(output.stdout).unwrap();
    let words = line.trim_end().split(' ');
    let numbers: Vec<u64> = words.map(|word| word.parse().unwrap()).collect();
    numbers.try_into().unwrap()
}

#[test]
fn one_line_has_the_time_and_a_number_of_the_answers() {
    let folder = "../../bindings/samples";
    let [time, checked] = told(&[folder]);
    assert!(time > 0);
    assert_eq!(told(&[folder])[1], checked);
    assert_ne!(told(&[folder, "hall"])[1], checked);
}

#[test]
fn a_folder_that_is_absent_and_other_arguments_are_errors() {
    for arguments in [&["absent"][..], &[], &["a", "b", "c"]] {
        let output = run(arguments);
        assert!(!output.status.success() && output.stdout.is_empty());
        assert!(!output.stderr.is_empty());
    }
}
