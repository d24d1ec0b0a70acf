//! The stories of one shape: their verdicts, and that a run has them among its cases.

use differential::cases::{case, run_case, shaped_case};
use differential::compare::compare;
use differential::encode::encode;
use differential::random::Random;
use differential::second::{self, Answer, MESSAGE};
use differential::shapes::{SHAPES, shaped};
use differential::validator::oracle;
use differential::vectors::LONGEST_INPUT;
use std::collections::BTreeSet;

/// The rule that each shape breaks first at a size of 21; 0 for none.
const RULES: [u8; 19] = [0, 0, 0, 10, 0, 7, 0, 0, 0, 0, 0, 0, 0, 0, 2, 0, 0, 0, 0];

#[test]
fn shapes_have_the_verdicts_that_they_are_made_for() {
    for (number, shape) in SHAPES.iter().enumerate() {
        let story = shape(21);
        let file = encode(&story).unwrap();
        let Answer::Checked(report) = second::check(&file, 3 * (file.len() - 20), MESSAGE) else {
            panic!("shape {number} is refused");
        };
        let text = report.breach.map(|_| report.message);
        let original = oracle::verdict(&story).map(String::into_bytes);
        assert_eq!(text, original, "shape {number}");
        let rule = report.breach.map_or(0, |breach| breach.rule);
        assert_eq!(rule, RULES[number], "shape {number}");
    }
}

#[test]
fn shapes_can_be_of_any_size() {
    for shape in SHAPES {
        let lengths = [0, 1, 2, 60].map(|size| encode(&shape(size)).unwrap().len());
        assert!(
            lengths.is_sorted() && lengths[0] < lengths[3],
            "{lengths:?}"
        );
    }
}

#[test]
fn shaped_stories_have_files_and_most_are_read_by_the_program() {
    let file = |number| encode(&shaped(&mut Random::new(9, number))).unwrap();
    let lengths: Vec<usize> = (0..1000).map(|number| file(number).len()).collect();
    let longer = lengths.iter().filter(|length| **length > LONGEST_INPUT);
    assert!((1..50).contains(&longer.count()));
    assert!(lengths.iter().all(|length| *length < 70_000));
}

#[test]
fn both_implementations_agree_on_shaped_stories() {
    let mut rules = BTreeSet::new();
    for number in 0..300 {
        let case = shaped_case(6, number);
        let outcome = compare(&case, None);
        assert_eq!(outcome.differences, Vec::<String>::new(), "story {number}");
        if let Answer::Checked(report) = outcome.answer {
            rules.insert(report.breach.map_or(0, |breach| breach.rule));
        }
    }
    assert!(rules.len() > 7, "{rules:?}");
}

#[test]
fn a_run_has_the_numbered_cases_in_order_and_shaped_ones_between() {
    let files = |numbers: &[u64]| {
        numbers
            .iter()
            .map(|n| run_case(8, *n).file)
            .collect::<Vec<_>>()
    };
    let numbered = [0, 8, 9, 17, 18].map(|number| case(8, number).file);
    assert_eq!(files(&[0, 8, 10, 18, 20]), numbered);
    assert_eq!(
        files(&[9, 19]),
        [0, 1].map(|number| shaped_case(8, number).file)
    );
}
