//! The stored list: what its writers expect, what both implementations say, and what it covers.

use differential::aimed::PAIRS;
use differential::decode::decode;
use differential::second::{self, Answer, MESSAGE};
use differential::validator::oracle;
use differential::vectors::{self, Expected, LONGEST_INPUT, expectation};
use std::collections::BTreeSet;

/// The check with buffers just long enough.
fn check(input: &[u8]) -> Answer {
    second::check(input, 3 * input.len().saturating_sub(20), MESSAGE)
}

#[test]
fn every_vector_has_the_answer_that_its_writer_expects() {
    let mut wrong = Vec::new();
    for vector in vectors::vectors() {
        let got = expectation(&check(&vector.input));
        if got != vector.expected {
            wrong.push(format!(
                "{}: {got:?}, not {:?}",
                vector.name, vector.expected
            ));
        }
    }
    assert!(wrong.is_empty(), "{wrong:#?}");
    for call in vectors::calls() {
        let answer = second::check(&call.vector.input, call.index, call.message);
        let expected = call.vector.expected;
        assert_eq!(expectation(&answer), expected, "{}", call.vector.name);
    }
}

#[test]
fn every_lookup_has_the_answer_that_its_writer_expects() {
    for lookup in vectors::lookups() {
        let got = second::lookup(&lookup.input, lookup.index, &lookup.target);
        assert_eq!(got, lookup.expected, "{}", lookup.name);
    }
}

#[test]
fn the_original_gives_every_text_in_its_domain() {
    let mut judged = 0;
    for vector in vectors::vectors() {
        let Ok(decoded) = decode(&vector.input) else {
            continue;
        };
        if decoded.names_are_utf8 {
            let Answer::Checked(report) = check(&vector.input) else {
                panic!("{} is refused", vector.name);
            };
            let text = report.breach.map(|_| report.message);
            let original = oracle::verdict(&decoded.story).map(String::into_bytes);
            assert_eq!(text, original, "{}", vector.name);
            judged += 1;
        }
    }
    assert!(judged > 300, "only {judged} vectors were judged");
}

#[test]
fn the_list_covers_every_answer_with_short_inputs() {
    let vectors = vectors::vectors();
    let expected: Vec<Expected> = vectors.iter().map(|vector| vector.expected).collect();
    for (rule, step) in PAIRS {
        assert!(expected.contains(&Expected::Breach(rule, step)));
    }
    for refusal in 1..=6 {
        assert!(expected.contains(&Expected::Refused(refusal)));
    }
    let lent: Vec<Expected> = vectors::calls().iter().map(|c| c.vector.expected).collect();
    assert!(lent.contains(&Expected::Refused(7)) && lent.contains(&Expected::Refused(8)));
    assert!(vectors.iter().all(|v| v.input.len() <= LONGEST_INPUT));
    let short = vectors.iter().filter(|v| v.input.len() <= 200).count();
    assert!(
        short * 10 > vectors.len() * 8,
        "{short} of {} are short",
        vectors.len()
    );
}

#[test]
fn no_name_is_given_twice() {
    let vectors = vectors::vectors();
    let mut names: Vec<String> = vectors.iter().map(|one| one.name.clone()).collect();
    names.extend(vectors::calls().into_iter().map(|one| one.vector.name));
    names.extend(vectors::lookups().into_iter().map(|one| one.name));
    let distinct: BTreeSet<&String> = names.iter().collect();
    assert_eq!(distinct.len(), names.len());
}

#[test]
fn the_stored_file_is_what_the_list_command_writes() {
    let stored = include_str!("../vectors.txt");
    assert!(stored == vectors::text(), "run differential/list");
}
