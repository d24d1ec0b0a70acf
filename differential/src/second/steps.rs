//! The twenty steps: every breach that stands, in order.

use super::index::NONE;
use super::reader::{Body, Flow, Name, Node, Story, What};
use super::search::{Known, set};
use super::walks;
use std::collections::BTreeSet;

/// A breach: rule, step, the number of the step as run, place and up to two names.
#[derive(Debug, Clone, Copy, PartialEq, Eq)]
pub struct Breach {
    pub rule: u8,
    pub step: u8,
    pub instance: u32,
    pub place: u32,
    pub names: [u32; 2],
}

/// A breach before its step is known.
struct Found {
    rule: u8,
    place: u32,
    names: [u32; 2],
}

/// A breach whose text has one name.
fn named(rule: u8, place: u32, name: Name) -> Found {
    Found {
        rule,
        place,
        names: [name.place, NONE],
    }
}

/// The steps run so far.
struct Run {
    instances: u32,
    breaches: Vec<Breach>,
}

impl Run {
    /// Takes down one step as run for the root, a flow or a stitch.
    fn step(&mut self, step: u8, mut found: Vec<Found>) {
        found.sort_by_key(|one| (one.place, one.rule));
        let instance = self.instances;
        self.breaches.extend(found.iter().map(|one| Breach {
            rule: one.rule,
            step,
            instance,
            place: one.place,
            names: one.names,
        }));
        self.instances += 1;
    }
}

/// All breaches of a story, by step instance, then place, then rule.
pub fn breaches(story: &Story, known: &Known) -> Vec<Breach> {
    let mut run = Run {
        instances: 0,
        breaches: Vec::new(),
    };
    let root = &story.root;
    let labels = set(&walks::labels(root));
    run.step(1, temps(root, &BTreeSet::new(), &labels, known));
    run.step(2, targets(root, known));
    run.step(3, calls(root, known));
    run.step(4, choices(root));
    for flow in &story.flows {
        flow_steps(flow, known, &mut run);
    }
    run.step(20, gathers(root));
    run.breaches
}

/// Steps 5 to 19 of a flow.
fn flow_steps(flow: &Flow, known: &Known, run: &mut Run) {
    let own = &flow.own;
    let labels = knot_labels(flow);
    run.step(5, purity(flow));
    run.step(6, parameters(own, known));
    run.step(7, temps(&own.nodes, &set(&own.parameters), &labels, known));
    run.step(8, targets(&own.nodes, known));
    run.step(9, calls(&own.nodes, known));
    run.step(10, choices(&own.nodes));
    run.step(11, variable_diverts(own));
    for stitch in &flow.stitches {
        let nodes = &stitch.nodes;
        run.step(12, stitch_name(stitch, known));
        run.step(13, temps(nodes, &set(&stitch.parameters), &labels, known));
        run.step(14, targets(nodes, known));
        run.step(15, calls(nodes, known));
        run.step(16, variable_diverts(stitch));
        run.step(17, forbidden_variables(own, stitch));
        run.step(18, gathers(nodes));
    }
    run.step(19, gathers(&own.nodes));
}

/// The labels of a knot and all its stitches.
fn knot_labels<'f>(flow: &Flow<'f>) -> BTreeSet<&'f [u8]> {
    let mut labels = set(&walks::labels(&flow.own.nodes));
    for stitch in &flow.stitches {
        labels.extend(set(&walks::labels(&stitch.nodes)));
    }
    labels
}

/// Rules 4, 6 and 7.
fn temps(
    nodes: &[Node],
    parameters: &BTreeSet<&[u8]>,
    labels: &BTreeSet<&[u8]>,
    known: &Known,
) -> Vec<Found> {
    let mut found = Vec::new();
    for (place, name) in walks::temps(nodes) {
        let clashes = [
            (4, known.functions.contains(name.bytes)),
            (6, parameters.contains(name.bytes)),
            (7, labels.contains(name.bytes)),
        ];
        let broken = clashes.iter().filter(|(_, clash)| *clash);
        found.extend(broken.map(|(rule, _)| named(*rule, place, name)));
    }
    found
}

/// Rules 1 and 2.
fn targets(nodes: &[Node], known: &Known) -> Vec<Found> {
    let breach = |jump: walks::Jump| {
        let rule = known.target_breach(jump.target.bytes)?;
        Some(named(rule, jump.place, jump.target))
    };
    walks::jumps(nodes).into_iter().filter_map(breach).collect()
}

/// Rule 3.
fn calls(nodes: &[Node], known: &Known) -> Vec<Found> {
    let mut calls = walks::calls(nodes);
    calls.retain(|(_, name)| known.call_breach(name.bytes));
    let breach = |(place, name)| named(3, place, name);
    calls.into_iter().map(breach).collect()
}

/// Rule 11.
fn choices(nodes: &[Node]) -> Vec<Found> {
    let mut found = Vec::new();
    for met in walks::nodes(nodes) {
        if let What::Choice(_, _, body) = &met.node.what
            && met.in_branch
            && !leaves(body)
        {
            found.push(Found {
                rule: 11,
                place: met.node.place,
                names: [NONE, NONE],
            });
        }
    }
    found
}

/// Whether the last node that is no Newline is there and of kinds 3, 6, 7, 11 or 12.
fn leaves(body: &[Node]) -> bool {
    let last = body.iter().rfind(|node| node.kind != 1);
    last.is_some_and(|node| [3, 6, 7, 11, 12].contains(&node.kind))
}

/// Rules 12, 13 and 14, for a function only.
fn purity(flow: &Flow) -> Vec<Found> {
    let mut found = Vec::new();
    if !flow.is_function {
        return found;
    }
    let function = flow.own.name;
    if !flow.stitches.is_empty() {
        found.push(named(12, flow.place, function));
    }
    for met in walks::nodes(&flow.own.nodes) {
        if met.node.kind == 14 {
            found.push(named(13, met.node.place, function));
        }
    }
    for jump in walks::jumps(&flow.own.nodes) {
        if jump.kind == 3 && jump.target.bytes != b"END" && jump.target.bytes != b"DONE" {
            found.push(Found {
                rule: 14,
                place: jump.place,
                names: [function.place, jump.target.place],
            });
        }
    }
    found
}

/// Rules 4 and 5 on parameter names.
fn parameters(body: &Body, known: &Known) -> Vec<Found> {
    let mut found = Vec::new();
    for name in &body.parameters {
        if known.functions.contains(name.bytes) {
            found.push(named(4, name.place, *name));
        }
        if known.globals.contains(name.bytes) {
            found.push(named(5, name.place, *name));
        }
    }
    found
}

/// Rules 8 and 9.
fn variable_diverts(body: &Body) -> Vec<Found> {
    let parameters = set(&body.parameters);
    let marks = set(&body.marks);
    let mut found = Vec::new();
    for jump in walks::jumps(&body.nodes) {
        let target = jump.target.bytes;
        if parameters.contains(target) && !marks.contains(target) {
            found.push(named(8, jump.place, jump.target));
        }
        for argument in jump.arguments {
            if let Some(name) = argument.name
                && argument.kind == 2
                && marks.contains(name.bytes)
            {
                found.push(named(9, argument.place, name));
            }
        }
    }
    found
}

/// Rule 5 on a stitch's name.
fn stitch_name(stitch: &Body, known: &Known) -> Vec<Found> {
    match known.globals.contains(stitch.name.bytes) {
        true => vec![named(5, stitch.name.place, stitch.name)],
        false => Vec::new(),
    }
}

/// Rule 15.
fn forbidden_variables(knot: &Body, stitch: &Body) -> Vec<Found> {
    let visible = |body: &Body| -> BTreeSet<Vec<u8>> {
        let temps = walks::temps(&body.nodes).into_iter().map(|(_, name)| name);
        let names = temps.chain(body.parameters.iter().copied());
        names.map(|name| name.bytes.to_vec()).collect()
    };
    let (outer, own) = (visible(knot), visible(stitch));
    let mut variables = walks::variables(&stitch.nodes);
    variables.retain(|(_, name)| outer.contains(name.bytes) && !own.contains(name.bytes));
    let breach = |(place, name)| named(15, place, name);
    variables.into_iter().map(breach).collect()
}

/// Rule 10.
fn gathers(nodes: &[Node]) -> Vec<Found> {
    let mut seen = BTreeSet::new();
    let mut found = Vec::new();
    for (place, name) in walks::gathers(nodes) {
        if !seen.insert(name.bytes) {
            found.push(named(10, place, name));
        }
    }
    found
}
