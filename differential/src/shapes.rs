//! Stories of one shape each, as large as one likes: many names, and many questions about them.

pub mod bodies;
pub mod names;
pub mod sections;
pub mod sets;
pub mod targets;

use crate::ast::{Flow, Node, ParsedStory};
use crate::collisions;
use crate::encode::encode;
use crate::generate::{WILD, exchange};
use crate::random::Random;
use crate::story::{divert, global, knot, story};
use crate::vectors::LONGEST_INPUT;

/// A story of a shape, of a size that grows with a number.
pub type Shape = fn(usize) -> ParsedStory;

/// All shapes.
pub const SHAPES: [Shape; 19] = [
    bodies::root_of_temps,
    bodies::knot_of_temps,
    bodies::stitch_variables,
    bodies::late_gather,
    bodies::gathers,
    bodies::all_broken,
    sections::parameters_and_globals,
    sections::stitches_and_globals,
    sections::calls_and_externals,
    sections::calls_and_flows,
    targets::relative,
    targets::shared_label,
    targets::dotted_globals,
    targets::many_dots,
    targets::empty_names,
    sets::long_prefixes,
    sets::full_globals,
    sets::full_labels,
    sets::collisions,
];

/// The longest file of a large story, before names are exchanged; the program does not read it.
const LONGEST_LARGE: usize = 65_536;

/// A story of one or two shapes, as it is or with some flows turned and some names exchanged.
pub fn shaped(random: &mut Random) -> ParsedStory {
    let longest = match random.once_in(100) {
        true => LONGEST_LARGE,
        false => LONGEST_INPUT,
    };
    let most = match random.below(10) {
        _ if longest > LONGEST_INPUT => 1500,
        0 => 200,
        1..=3 => 50,
        _ => 12,
    };
    let mut size = 1 + random.below(most);
    let first = *random.pick(&SHAPES);
    let second = random.once_in(3).then(|| *random.pick(&SHAPES));
    let mut story = joined(size, first, second);
    while !fits(&story, longest) {
        size /= 2;
        story = joined(size, first, second);
    }
    for _ in 0..random.below(3) {
        turn(random, &mut story);
    }
    for _ in 0..random.below(4) {
        exchange(random, &mut story, asked_name);
    }
    story
}

/// The sections of one or two stories of a size, one after the other.
fn joined(size: usize, first: Shape, second: Option<Shape>) -> ParsedStory {
    let mut story = first(size);
    if let Some(second) = second.map(|second| second(size)) {
        story.globals.extend(second.globals);
        story.external_functions.extend(second.external_functions);
        story.root.extend(second.root);
        story.flows.extend(second.flows);
    }
    story
}

/// Whether the file of a story has at most so many bytes.
fn fits(story: &ParsedStory, longest: usize) -> bool {
    encode(story).is_ok_and(|file| file.len() <= longest)
}

/// Makes a function of one of the flows, if there are some, or gives it a parameter or a mark of a flow's name.
fn turn(random: &mut Random, story: &mut ParsedStory) {
    let flows = story.flows.len();
    if flows == 0 {
        return;
    }
    let name = story.flows[random.below(flows)].name.clone();
    let flow = &mut story.flows[random.below(flows)];
    match random.below(4) {
        0 if flow.parameters.len() < 255 => flow.parameters.push(name),
        1 => flow.divert_parameters.push(name),
        _ => flow.is_function = true,
    }
}

/// A name that some shape has or nearly has.
pub fn asked_name(random: &mut Random) -> String {
    let number = random.below(60);
    match random.below(8) {
        0 => collisions::name(number),
        1 => names::long(number),
        2 => names::short(number),
        3 => names::with_dots(1 + number % 20),
        4 => names::after_dots(1 + number % 20, number % 3),
        5 => String::new(),
        6 => format!("label_{number}"),
        _ => random.word(&WILD).to_string(),
    }
}

/// The story of a root and flows with these globals.
fn with_globals(
    names: impl Iterator<Item = String>,
    root: Vec<Node>,
    flows: Vec<Flow>,
) -> ParsedStory {
    let mut story = story(root, flows);
    story.globals = names.map(|name| global(&name)).collect();
    story
}

/// A story of one knot, to which the root leads.
fn hall(nodes: Vec<Node>) -> ParsedStory {
    story(vec![divert("hall")], vec![knot("hall", nodes)])
}
