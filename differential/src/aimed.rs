//! Stories aimed at one rule in one step: a sound story with one fault put into the right body.

use crate::ast::{Condition, Expression, Flow, Node, ParsedStory};
use crate::generate::{BUILTINS, sound};
use crate::random::Random;
use crate::story::{
    binary, call, choice, conditional, conditional_choice, constant, divert, gather, global, jump,
    knot, negate, nodes_mut, output, sequence, switch, target, temp, variable, void_call,
};

/// Every rule with every step in which it can stand.
pub const PAIRS: [(u8, u8); 33] = [
    (4, 1),
    (7, 1),
    (1, 2),
    (2, 2),
    (3, 3),
    (11, 4),
    (12, 5),
    (13, 5),
    (14, 5),
    (4, 6),
    (5, 6),
    (4, 7),
    (6, 7),
    (7, 7),
    (1, 8),
    (2, 8),
    (3, 9),
    (11, 10),
    (8, 11),
    (9, 11),
    (5, 12),
    (4, 13),
    (6, 13),
    (7, 13),
    (1, 14),
    (2, 14),
    (3, 15),
    (8, 16),
    (9, 16),
    (15, 17),
    (10, 18),
    (10, 19),
    (10, 20),
];

/// A story that misses this rule in this step by one name; some still break it elsewhere.
pub fn cured(random: &mut Random, rule: u8, step: u8) -> ParsedStory {
    let mut story = aimed(random, rule, step);
    let knot = chosen(random, &story.flows, false);
    match rule {
        2 => story
            .globals
            .extend(["nowhere", "a..s", "b.k."].map(global)),
        3 => cure_call(random, &mut story, knot),
        8 => flows_mut(&mut story, |flow| {
            let parameters = flow.parameters.clone();
            flow.divert_parameters.extend(parameters);
        }),
        9 => flows_mut(&mut story, |flow| flow.divert_parameters.clear()),
        10 => gathers_to_choices(&mut story),
        15 => cure_variable(random, &mut story.flows[knot]),
        _ => {}
    }
    story
}

/// Gives the knot's name to an external, or calls a built-in word that is a knot's name too.
fn cure_call(random: &mut Random, story: &mut ParsedStory, number: usize) {
    if random.once_in(3) {
        let name = story.flows[number].name.clone();
        return story.external_functions.push(name);
    }
    let word = random.word(&BUILTINS);
    let called = called(random, word);
    *story = sound(random);
    insert(random, &mut story.root, called);
    story.flows.push(knot(word, vec![]));
}

/// Declares the names of the faults below in every stitch of a knot.
fn cure_variable(random: &mut Random, flow: &mut Flow) {
    for name in OWN_NAMES {
        for stitch in &mut flow.children {
            match random.once_in(2) {
                true => stitch.parameters.push(name.to_string()),
                false => insert(random, &mut stitch.nodes, temp(name)),
            }
        }
    }
}

/// Turns every gather of a story into a choice with the same label.
fn gathers_to_choices(story: &mut ParsedStory) {
    let turn = |node: &mut Node| {
        if let Node::GatherLabel { label, .. } = node {
            *node = choice(Some(&label.clone()), vec![divert("END")]);
        }
    };
    nodes_mut(&mut story.root, &mut { turn });
    flows_mut(story, |flow| nodes_mut(&mut flow.nodes, &mut { turn }));
}

/// Visits every flow and stitch.
fn flows_mut(story: &mut ParsedStory, visit: impl Fn(&mut Flow)) {
    for flow in &mut story.flows {
        visit(flow);
        flow.children.iter_mut().for_each(&visit);
    }
}

/// The names of faults that lean on a name of the same flow.
const OWN_NAMES: [&str; 4] = ["own", "o.n", "END", "ö"];

/// A story whose first breach is most likely this rule in this step.
pub fn aimed(random: &mut Random, rule: u8, step: u8) -> ParsedStory {
    let mut story = sound(random);
    let function = chosen(random, &story.flows, true);
    let knot = chosen(random, &story.flows, false);
    match rule {
        5 | 12 => head_fault(random, &mut story, rule, step, function, knot),
        4 if step == 6 => parameter_fault(random, &mut story),
        13 | 14 => {
            let node = purity_fault(random, &story, rule, knot);
            let node = nest(random, node, rule == 14);
            insert(random, &mut story.flows[function].nodes, node);
        }
        6..=9 | 15 => own_fault(random, &mut story, rule, step, knot),
        _ => body_fault(random, &mut story, rule, step, knot),
    }
    story
}

/// The number of a function, or of a knot with a stitch.
fn chosen(random: &mut Random, flows: &[Flow], function: bool) -> usize {
    let fits = |number: &usize| {
        let flow = &flows[*number];
        flow.is_function == function && (function || !flow.children.is_empty())
    };
    let numbers: Vec<usize> = (0..flows.len()).filter(fits).collect();
    *random.pick(&numbers)
}

/// Rules 5 and 12: a parameter, a stitch's name, a stitch.
fn head_fault(
    random: &mut Random,
    story: &mut ParsedStory,
    rule: u8,
    step: u8,
    function: usize,
    knot_number: usize,
) {
    let taken = random.pick(&story.globals).name.clone();
    match (rule, step) {
        (12, _) => story.flows[function].children.push(knot("s", vec![])),
        (_, 6) => {
            let flow = if random.once_in(2) {
                function
            } else {
                knot_number
            };
            push_at_random(random, &mut story.flows[flow].parameters, taken);
        }
        _ => {
            let stitches = &mut story.flows[knot_number].children;
            let number = random.below(stitches.len());
            stitches[number].name = taken;
        }
    }
}

/// Rule 4 in step 6: a parameter named as a function.
fn parameter_fault(random: &mut Random, story: &mut ParsedStory) {
    let name = function_name(random, story);
    let number = random.below(story.flows.len());
    push_at_random(random, &mut story.flows[number].parameters, name);
}

/// Puts a name somewhere into a list of names.
fn push_at_random(random: &mut Random, names: &mut Vec<String>, name: String) {
    names.insert(random.below(names.len() + 1), name);
}

/// Rules 13 and 14: a choice, or a divert away.
fn purity_fault(random: &mut Random, story: &ParsedStory, rule: u8, knot: usize) -> Node {
    match rule {
        13 => choice(None, vec![divert("END")]),
        _ => {
            let own = story.flows[knot].name.as_str();
            divert(random.word(&[own, "->->", "", "$x", "nowhere", "end"]))
        }
    }
}

/// Rules 6, 7, 8, 9 and 15: faults that lean on a name of the same flow.
fn own_fault(random: &mut Random, story: &mut ParsedStory, rule: u8, step: u8, knot: usize) {
    let name = random.word(&OWN_NAMES);
    let kind = 3 + random.below(3) as u8;
    let node = match rule {
        6 | 7 => temp(name),
        8 => jump(kind, name, vec![]),
        9 => jump(kind, "END", vec![constant(), target(name)]),
        _ => bearing(random, variable(name), false),
    };
    let node = nest(random, node, false);
    let stitch = random.below(story.flows[knot].children.len());
    if rule == 7 {
        let label = labelled(random.once_in(2), name);
        let label = nest(random, label, false);
        insert(random, label_body(story, step, knot, stitch), label);
    }
    let flow = &mut story.flows[knot];
    if rule == 15 {
        match random.once_in(2) {
            true => flow.parameters.push(name.to_string()),
            false => flow.nodes.push(temp(name)),
        }
    }
    let own = match step {
        12..=18 => &mut flow.children[stitch],
        _ => flow,
    };
    match rule {
        6 | 8 => own.parameters.push(name.to_string()),
        9 => own.divert_parameters.push(name.to_string()),
        _ => {}
    }
    insert(random, body(story, step, knot, stitch), node);
}

/// The body that holds the label which a temp of a step clashes with.
fn label_body(story: &mut ParsedStory, step: u8, knot: usize, stitch: usize) -> &mut Vec<Node> {
    match step {
        1 => &mut story.root,
        7 => &mut story.flows[knot].children[stitch].nodes,
        _ => &mut story.flows[knot].nodes,
    }
}

/// Rules 1, 2, 3, 4, 10 and 11: faults that lean on the whole story or on nothing.
fn body_fault(random: &mut Random, story: &mut ParsedStory, rule: u8, step: u8, knot: usize) {
    let stitch = random.below(story.flows[knot].children.len());
    let function = function_name(random, story);
    let kind = 3 + random.below(3) as u8;
    let node = match rule {
        1 => jump(kind, &function, vec![]),
        2 => jump(kind, random.word(&["nowhere", ".s", "k.", "'"]), vec![]),
        3 => called(random, &story.flows[knot].name.clone()),
        4 => temp(&function),
        10 => gather("twice"),
        _ => undiverted(random),
    };
    for _ in 0..if rule == 10 { 2 } else { 1 } {
        let node = nest(random, node.clone(), false);
        insert(random, body(story, step, knot, stitch), node);
    }
}

/// The body that a step visits.
fn body(story: &mut ParsedStory, step: u8, knot: usize, stitch: usize) -> &mut Vec<Node> {
    match step {
        1..=4 | 20 => &mut story.root,
        12..=18 => &mut story.flows[knot].children[stitch].nodes,
        _ => &mut story.flows[knot].nodes,
    }
}

/// The name of one of the functions.
fn function_name(random: &mut Random, story: &ParsedStory) -> String {
    let number = chosen(random, &story.flows, true);
    story.flows[number].name.clone()
}

/// A gather or a labelled choice that leaves.
fn labelled(as_choice: bool, label: &str) -> Node {
    match as_choice {
        true => choice(Some(label), vec![divert("END")]),
        false => gather(label),
    }
}

/// A choice that does not leave, directly in a branch.
fn undiverted(random: &mut Random) -> Node {
    let body = match random.below(4) {
        0 => vec![],
        1 => vec![divert("END"), Node::Glue, Node::Newline],
        2 => vec![jump(4, "END", vec![])],
        _ => vec![Node::Newline, Node::ReturnVoid],
    };
    let body = vec![Node::Newline, choice(None, body)];
    match random.below(3) {
        0 => conditional(body, None),
        1 => conditional(vec![], Some(body)),
        _ => switch(vec![vec![], body]),
    }
}

/// A name called in any of the places where calls are looked for.
fn called(random: &mut Random, name: &str) -> Node {
    let condition = Condition::FunctionCall(name.to_string());
    match random.below(4) {
        0 => void_call(name, vec![constant()]),
        1 => Node::Conditional {
            condition,
            when_true: vec![],
            when_false: None,
        },
        2 => conditional_choice(None, vec![condition], vec![divert("END")]),
        _ => bearing(random, call(name, vec![variable("free")]), false),
    }
}

/// A node in which an expression stands, perhaps inside others.
fn bearing(random: &mut Random, mut value: Expression, function: bool) -> Node {
    for _ in 0..random.below(3) {
        value = match random.below(4) {
            0 => negate(value),
            1 => Expression::Not(Box::new(value)),
            2 => binary(constant(), value),
            _ => call("nobody", vec![constant(), value]),
        };
    }
    let condition = Condition::Expression(value.clone());
    match random.below(if function { 7 } else { 8 }) {
        0 => output(value),
        1 => Node::ReturnExpr(value),
        2 => void_call("nobody", vec![value]),
        3 => Node::Conditional {
            condition,
            when_true: vec![],
            when_false: None,
        },
        4 => Node::SwitchConditional {
            value,
            branches: vec![],
        },
        5 => Node::SwitchConditional {
            value: constant(),
            branches: vec![(None, vec![]), (Some(value), vec![])],
        },
        6 => Node::Assignment {
            variable_name: "gold".to_string(),
            expression: value,
            mode: crate::ast::AssignMode::AddAssign,
        },
        _ => conditional_choice(None, vec![condition], vec![divert("END")]),
    }
}

/// A node inside up to two others.
fn nest(random: &mut Random, mut node: Node, function: bool) -> Node {
    for _ in 0..random.below(3) {
        let body = vec![node];
        node = match random.below(if function { 4 } else { 5 }) {
            0 => conditional(body, Some(vec![])),
            1 => conditional(vec![Node::Newline], Some(body)),
            2 => switch(vec![vec![], body]),
            3 => sequence(vec![vec![], body]),
            _ => choice(None, [body, vec![divert("END")]].concat()),
        };
    }
    node
}

/// Puts a node somewhere into a body.
fn insert(random: &mut Random, nodes: &mut Vec<Node>, node: Node) {
    nodes.insert(random.below(nodes.len() + 1), node);
}
