//! Sections full of names beside as many names or calls that are sought in them.

use super::names::numbered;
use super::with_globals;
use crate::ast::{Flow, Node, ParsedStory};
use crate::story::{knot, story, void_call};

/// The most parameters of a knot; as many stitches are put into one.
const MOST: usize = 255;

/// So many globals, and as many parameters of knots.
pub fn parameters_and_globals(count: usize) -> ParsedStory {
    with_globals(numbered("g", count), Vec::new(), knots(count, parameters))
}

/// So many globals, and as many stitches of knots.
pub fn stitches_and_globals(count: usize) -> ParsedStory {
    with_globals(numbered("g", count), Vec::new(), knots(count, stitches))
}

/// Knots that are given so many names in turn.
fn knots(count: usize, knot: fn(usize, &[String]) -> Flow) -> Vec<Flow> {
    let names: Vec<String> = numbered("p", count).collect();
    let shares = names.chunks(MOST).enumerate();
    shares.map(|(number, some)| knot(number, some)).collect()
}

/// A knot with these parameters.
fn parameters(number: usize, names: &[String]) -> Flow {
    Flow {
        parameters: names.to_vec(),
        ..knot(&format!("knot_{number}"), Vec::new())
    }
}

/// A knot with empty stitches of these names.
fn stitches(number: usize, names: &[String]) -> Flow {
    let stitches = names.iter().map(|name| knot(name, Vec::new()));
    knot(&format!("knot_{number}"), Vec::new()).with_stitches(stitches.collect())
}

/// So many externals, and as many calls of a name that none has.
pub fn calls_and_externals(count: usize) -> ParsedStory {
    let mut story = story(calls(count), Vec::new());
    story.external_functions = numbered("e", count).collect();
    story
}

/// So many knots, and as many calls of a name that none has.
pub fn calls_and_flows(count: usize) -> ParsedStory {
    let knots = numbered("k", count).map(|name| knot(&name, Vec::new()));
    story(calls(count), knots.collect())
}

/// Calls of an unknown name.
fn calls(count: usize) -> Vec<Node> {
    vec![void_call("unknown", Vec::new()); count]
}
