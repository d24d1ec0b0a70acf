//! A sample of generated and damaged stories, some for each answer.

use super::{Expected, Vector, expectation};
use crate::cases::case;
use crate::second::{MESSAGE, check};
use std::collections::BTreeMap;

/// The seed and the number of the cases looked through.
const SEED: u64 = 20;
const CASES: u64 = 4000;

/// How many are taken for each rule and step, for each refusal, and of accepted ones.
fn wanted(expected: Expected) -> usize {
    match expected {
        Expected::Accepted => 20,
        Expected::Breach(..) => 2,
        Expected::Refused(_) => 8,
    }
}

/// The first cases of middling length for each answer.
pub fn sample() -> Vec<Vector> {
    let mut taken: BTreeMap<String, usize> = BTreeMap::new();
    let mut vectors = Vec::new();
    for number in 0..CASES {
        let input = case(SEED, number).file;
        if input.len() < 40 || input.len() > 200 {
            continue;
        }
        let expected = expectation(&check(&input, 3 * input.len(), MESSAGE));
        let count = taken.entry(format!("{expected:?}")).or_default();
        if *count < wanted(expected) {
            *count += 1;
            vectors.push(Vector {
                name: format!("generated-{number}"),
                from: format!("generator, seed {SEED}, story {number}"),
                input,
                expected,
            });
        }
    }
    vectors
}
