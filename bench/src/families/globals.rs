//! Stories of thousands of globals.

use differential::ast::{AssignMode, Node, ParsedStory};
use differential::random::Random;
use differential::story::{assign, divert, knot, output, story, variable};

/// So many globals, each set, printed and diverted to in a knot of fifty.
pub fn globals(count: usize) -> ParsedStory {
    let mut random = Random::new(13, 0);
    let names: Vec<String> = (0..count)
        .map(|number| format!("variable_{number}"))
        .collect();
    let names: Vec<&str> = names.iter().map(String::as_str).collect();
    let mut knots = Vec::new();
    for (number, some) in names.chunks(50).enumerate() {
        let mut nodes: Vec<Node> = Vec::new();
        for name in some {
            nodes.push(assign(AssignMode::Set, name));
            nodes.push(output(variable(random.word(&names))));
            nodes.push(divert(random.word(&names)));
        }
        knots.push(knot(&format!("knot_{number}"), nodes));
    }
    story(vec![divert("END")], knots).with_globals(&names)
}
