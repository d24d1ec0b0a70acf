//! Long bodies: temps, gathers, variables read in a stitch, and a breach at every record.

use super::hall;
use super::names::numbered;
use crate::ast::{Node, ParsedStory};
use crate::story::{divert, gather, knot, output, story, temp, variable};

/// A root of so many temps, each of another name.
pub fn root_of_temps(count: usize) -> ParsedStory {
    story(temps(count), Vec::new())
}

/// A knot with one label and so many temps, each of another name.
pub fn knot_of_temps(count: usize) -> ParsedStory {
    let mut nodes = vec![gather("label")];
    nodes.extend(temps(count));
    hall(nodes)
}

/// Temps of different names.
fn temps(count: usize) -> Vec<Node> {
    numbered("t", count).map(|name| temp(&name)).collect()
}

/// A knot and its stitch that both set one temp; the stitch reads it so many times before.
pub fn stitch_variables(count: usize) -> ParsedStory {
    let mut nodes = vec![output(variable("mood")); count];
    nodes.push(temp("mood"));
    let hall = knot("hall", vec![temp("mood")]);
    let hall = hall.with_stitches(vec![knot("door", nodes)]);
    story(vec![divert("hall")], vec![hall])
}

/// A root of so many gathers of different names, and one more with the name of the last.
pub fn late_gather(count: usize) -> ParsedStory {
    let mut nodes = gathers_of(count.max(1));
    nodes.extend(nodes.last().cloned());
    story(nodes, Vec::new())
}

/// A knot of text, a line for every ten gathers, and then so many gathers of different names.
pub fn gathers(count: usize) -> ParsedStory {
    let line = Node::Text("The rain had not stopped.".to_string());
    let mut nodes = vec![line; count.div_ceil(10)];
    nodes.extend(gathers_of(count));
    hall(nodes)
}

/// Gathers of different names.
fn gathers_of(count: usize) -> Vec<Node> {
    let labels = numbered("label_", count);
    labels.map(|label| gather(&label)).collect()
}

/// So many knots, before them the root: in each a temp has the name of a label, and the divert leads nowhere.
pub fn all_broken(count: usize) -> ParsedStory {
    let knots = (0..count).map(|number| knot(&format!("knot_{number}"), broken(number + 1)));
    story(broken(0), knots.collect())
}

/// A body in which all is broken.
fn broken(number: usize) -> Vec<Node> {
    let label = format!("label_{number}");
    let nowhere = divert(&format!("nowhere_{number}"));
    vec![gather(&label), temp(&label), nowhere]
}
