//! Many tiny stories.

use crate::sample::Sample;
use differential::generate::{renamed, sound};
use differential::random::Random;

/// The longest file that counts as tiny.
const LONGEST: usize = 300;

/// Generated stories of so many bytes in all; every other one has one or two names exchanged.
pub fn stories(size: usize) -> Vec<Sample> {
    let mut samples = Vec::new();
    let mut bytes = 0;
    for number in 0.. {
        let mut random = Random::new(17, number);
        let story = match number % 2 {
            0 => sound(&mut random),
            _ => renamed(&mut random),
        };
        let sample = Sample::of(story);
        if sample.file.len() > LONGEST {
            continue;
        }
        if bytes + sample.file.len() > size {
            break;
        }
        bytes += sample.file.len();
        samples.push(sample);
    }
    samples
}
