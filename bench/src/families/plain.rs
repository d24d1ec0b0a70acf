//! Stories of text, in the root or in one long knot.

use super::novel::lines;
use differential::ast::ParsedStory;
use differential::story::{divert, knot, story, temp};

/// A root of so many lines of text, every hundredth record a temp.
pub fn root_of_text(count: usize) -> ParsedStory {
    let mut nodes = lines(count);
    let hundredths = nodes.iter_mut().enumerate().skip(99).step_by(100);
    hundredths.for_each(|(number, node)| *node = temp(&format!("t{number}")));
    story(nodes, Vec::new())
}

/// A knot of so many lines of text, to which the root leads.
pub fn knot_of_text(count: usize) -> ParsedStory {
    story(vec![divert("hall")], vec![knot("hall", lines(count))])
}
