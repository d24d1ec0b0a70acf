//! Names that are hard on a set of names: nearly alike, more than it has room for, of one hash.

use super::names::{long, short};
use super::{hall, with_globals};
use crate::ast::{Flow, Node, ParsedStory};
use crate::collisions;
use crate::story::{divert, gather, knot, temp};

/// So many globals of 250 bytes, alike but for the last two bytes, each diverted to.
pub fn long_prefixes(count: usize) -> ParsedStory {
    let root = (0..count).map(|number| divert(&long(number)));
    with_globals((0..count).map(long), root.collect(), Vec::new())
}

/// So many globals of one hash, each diverted to.
pub fn collisions(count: usize) -> ParsedStory {
    let root = (0..count).map(|number| divert(&collisions::name(number)));
    let globals = (0..count).map(collisions::name);
    with_globals(globals, root.collect(), Vec::new())
}

/// For every so many names there is one question of each sort.
const ASKED: usize = 64;

/// The most parameters of a knot.
const MOST: usize = 255;

/// So many globals of three bytes; the last of them diverted to, and parameters of other names.
pub fn full_globals(count: usize) -> ParsedStory {
    let parameters: Vec<String> = (0..count.div_ceil(ASKED))
        .map(|n| format!("p{}", short(n)))
        .collect();
    let knots = parameters
        .chunks(MOST)
        .enumerate()
        .map(|(number, some)| Flow {
            parameters: some.to_vec(),
            ..knot(&format!("knot_{number}"), Vec::new())
        });
    with_globals((0..count).map(short), to_last(count), knots.collect())
}

/// A knot of so many labels of three bytes; the last of them diverted to, and temps of other names.
pub fn full_labels(count: usize) -> ParsedStory {
    let mut nodes: Vec<Node> = (0..count).map(|number| gather(&short(number))).collect();
    nodes.extend((0..count.div_ceil(ASKED)).map(|number| temp(&format!("t{}", short(number)))));
    nodes.extend(to_last(count));
    hall(nodes)
}

/// Diverts to the last of so many short names.
fn to_last(count: usize) -> Vec<Node> {
    let last = (0..count).rev().take(count.div_ceil(ASKED));
    last.map(|number| divert(&short(number))).collect()
}
