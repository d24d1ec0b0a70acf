//! One huge flat knot with thousands of labels.

use differential::ast::{Node, ParsedStory};
use differential::random::Random;
use differential::story::{choice, divert, gather, knot, story};

/// A knot of so many gathers and labelled choices, which divert to one another by short names.
pub fn flat(units: usize) -> ParsedStory {
    let mut random = Random::new(11, 0);
    let mut nodes = Vec::new();
    for number in 0..units {
        let target = format!("label_{}", random.below(units));
        nodes.push(gather(&format!("label_{number}")));
        nodes.push(Node::Newline);
        let body = vec![Node::Newline, divert(&target)];
        nodes.push(choice(Some(&format!("choice_{number}")), body));
    }
    nodes.push(divert("END"));
    story(vec![divert("hall")], vec![knot("hall", nodes)])
}
