//! The compiled program on the stored list: every form of its line is a stored run.

use differential::limits::file_of_length;
use differential::second;
use differential::stored::replay::{self, Item};
use differential::subject::{Observed, Program, Subject};
use differential::vectors::LONGEST_INPUT;
use std::collections::BTreeSet;

/// The number of rules.
const RULES: u8 = 15;

/// The program; without one the tests fail, since they would show nothing.
fn program() -> Program {
    let found = Program::find().unwrap();
    found.expect("no program: `tools/program` builds it, or INK_CHECK names one")
}

/// The stored checks of a kind, `vector` or `call`.
fn stored(kind: &str) -> Vec<Item> {
    let items = replay::items(include_str!("../vectors.txt"));
    let of_kind = |item: &Item| item.title.split(' ').next() == Some(kind);
    items.into_iter().filter(of_kind).collect()
}

/// The whole output for an input; an exit status other than 0 fails.
fn output(program: &mut Program, input: &[u8], what: &str) -> Vec<u8> {
    let path = program.title();
    match program.check(input, &mut [], &mut []) {
        Ok(Observed::Line(output)) => output,
        other => panic!("{what}: {path}: {other:?}"),
    }
}

/// An output's form: a breach without place and text, of the others all.
fn form(output: &[u8]) -> String {
    let text = String::from_utf8_lossy(output);
    match text.split_once(" at ") {
        Some((breach, _)) => breach.to_string(),
        None => text.trim_end_matches('\n').to_string(),
    }
}

#[test]
fn the_program_prints_every_stored_line_and_these_are_of_every_form() {
    let mut program = program();
    let mut forms = BTreeSet::new();
    let mut wrong = Vec::new();
    for item in stored("vector") {
        let printed = output(&mut program, &item.input, &item.title);
        let expected = [&item.lines[0], &b"\n"[..]].concat();
        forms.insert(form(&printed));
        if printed != expected {
            let [printed, expected] = [&printed, &expected].map(|one| String::from_utf8_lossy(one));
            wrong.push(format!("{}: {printed:?}, not {expected:?}", item.title));
        }
    }
    assert!(wrong.is_empty(), "{}: {wrong:#?}", program.title());
    let mut all = BTreeSet::from(["accepted".to_string()]);
    all.extend((1..=6).map(|refusal| format!("refused {refusal}")));
    all.extend((1..=RULES).map(|rule| format!("breach {rule}")));
    assert_eq!(forms, all);
}

/// Refusals 7 and 8 are for lent buffers: the program's own are long enough for all that it reads.
#[test]
fn the_program_refuses_nothing_for_its_own_buffers() {
    let mut program = program();
    let mut lent = BTreeSet::new();
    for item in stored("call") {
        lent.insert(form(&item.lines[0]));
        let printed = output(&mut program, &item.input, &item.title);
        let expected = [&second::program_line(&item.input), &b"\n"[..]].concat();
        assert_eq!(printed, expected, "{}", item.title);
        let short = ["refused 7", "refused 8"].contains(&form(&printed).as_str());
        assert!(!short, "{}", item.title);
    }
    assert!(lent.contains("refused 7") && lent.contains("refused 8"));
    let longest = output(&mut program, &file_of_length(LONGEST_INPUT), "longest");
    assert_eq!(longest, b"accepted\n");
}

#[test]
fn the_program_refuses_inputs_that_are_too_long() {
    let mut program = program();
    let behind = [file_of_length(LONGEST_INPUT), vec![0]].concat();
    let files = [LONGEST_INPUT + 1, 2 * LONGEST_INPUT, 200_000].map(file_of_length);
    for file in files.into_iter().chain([behind]) {
        let what = format!("{} bytes", file.len());
        assert_eq!(output(&mut program, &file, &what), b"refused 1\n", "{what}");
    }
}
