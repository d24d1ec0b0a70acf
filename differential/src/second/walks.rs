//! Walks at all depths: which nodes, labels, temps, jumps, calls and variables a body has.

use super::reader::{Condition, Expression, Name, Node, What};

/// A node met on a walk, and whether it stands directly in a branch of kind 8 or 9.
pub struct Met<'s, 'f> {
    pub node: &'s Node<'f>,
    pub in_branch: bool,
}

/// All nodes of a body.
pub fn nodes<'s, 'f>(list: &'s [Node<'f>]) -> Vec<Met<'s, 'f>> {
    let mut met = Vec::new();
    walk(list, false, &mut met);
    met
}

/// Every node of a list, then those of its inner lists.
fn walk<'s, 'f>(list: &'s [Node<'f>], in_branch: bool, met: &mut Vec<Met<'s, 'f>>) {
    for node in list {
        met.push(Met { node, in_branch });
        match &node.what {
            What::Conditional(_, lists) => lists.iter().for_each(|l| walk(l, true, met)),
            What::Switch(_, branches) => branches.iter().for_each(|b| walk(&b.nodes, true, met)),
            What::Sequence(lists) => lists.iter().for_each(|l| walk(l, false, met)),
            What::Choice(_, _, body) => walk(body, false, met),
            _ => {}
        }
    }
}

/// The labels of gathers and labelled choices, in file order.
pub fn labels<'f>(list: &[Node<'f>]) -> Vec<Name<'f>> {
    let label = |met: Met<'_, 'f>| match &met.node.what {
        What::Gather(name) => Some(*name),
        What::Choice(label, _, _) => *label,
        _ => None,
    };
    nodes(list).into_iter().filter_map(label).collect()
}

/// The gathers with their places, in file order.
pub fn gathers<'f>(list: &[Node<'f>]) -> Vec<(u32, Name<'f>)> {
    let gather = |met: Met<'_, 'f>| match &met.node.what {
        What::Gather(name) => Some((met.node.place, *name)),
        _ => None,
    };
    nodes(list).into_iter().filter_map(gather).collect()
}

/// The temps (assignments of mode 1) with their places.
pub fn temps<'f>(list: &[Node<'f>]) -> Vec<(u32, Name<'f>)> {
    let temp = |met: Met<'_, 'f>| match &met.node.what {
        What::Assignment(1, name, _) => Some((met.node.place, *name)),
        _ => None,
    };
    nodes(list).into_iter().filter_map(temp).collect()
}

/// A node of kind 3, 4 or 5.
pub struct Jump<'s, 'f> {
    pub place: u32,
    pub kind: u8,
    pub target: Name<'f>,
    pub arguments: &'s [Expression<'f>],
}

/// The jumps of a body.
pub fn jumps<'s, 'f>(list: &'s [Node<'f>]) -> Vec<Jump<'s, 'f>> {
    let jump = |met: Met<'s, 'f>| match &met.node.what {
        What::Named(target, arguments) if (3..=5).contains(&met.node.kind) => Some(Jump {
            place: met.node.place,
            kind: met.node.kind,
            target: *target,
            arguments,
        }),
        _ => None,
    };
    nodes(list).into_iter().filter_map(jump).collect()
}

/// The names called, each with the place of the record that bears it.
pub fn calls<'f>(list: &[Node<'f>]) -> Vec<(u32, Name<'f>)> {
    let mut calls = Vec::new();
    for met in nodes(list) {
        if let What::Named(name, _) = &met.node.what
            && met.node.kind == 16
        {
            calls.push((met.node.place, *name));
        }
        for condition in conditions(met.node) {
            calls.extend(condition.name.map(|name| (condition.place, name)));
        }
    }
    calls.extend(named_expressions(list, 5));
    calls
}

/// The variables with their places.
pub fn variables<'f>(list: &[Node<'f>]) -> Vec<(u32, Name<'f>)> {
    named_expressions(list, 1)
}

/// The visited expressions of one kind that has a name.
fn named_expressions<'f>(list: &[Node<'f>], kind: u8) -> Vec<(u32, Name<'f>)> {
    let mut visited = Vec::new();
    for met in nodes(list) {
        direct(met.node).for_each(|one| flatten(one, &mut visited));
    }
    let named = |one: &Expression<'f>| match one.name {
        Some(name) if one.kind == kind => Some((one.place, name)),
        _ => None,
    };
    visited.into_iter().filter_map(named).collect()
}

/// The expressions directly in a node of kinds 2, 8, 9, 12, 13, 14 and 16.
fn direct<'s, 'f>(node: &'s Node<'f>) -> impl Iterator<Item = &'s Expression<'f>> {
    let own: Vec<&Expression> = match &node.what {
        What::Value(value) | What::Assignment(_, _, value) => vec![value],
        What::Named(_, arguments) if node.kind == 16 => arguments.iter().collect(),
        What::Switch(value, branches) => {
            let cases = branches.iter().filter_map(|branch| branch.case.as_ref());
            std::iter::once(value).chain(cases).collect()
        }
        _ => Vec::new(),
    };
    let tests = conditions(node).iter().filter_map(|one| one.value.as_ref());
    own.into_iter().chain(tests)
}

/// The conditions of a conditional or choice.
fn conditions<'s, 'f>(node: &'s Node<'f>) -> &'s [Condition<'f>] {
    match &node.what {
        What::Conditional(condition, _) => std::slice::from_ref(condition),
        What::Choice(_, conditions, _) => conditions,
        _ => &[],
    }
}

/// An expression and all that is inside it.
fn flatten<'s, 'f>(one: &'s Expression<'f>, all: &mut Vec<&'s Expression<'f>>) {
    all.push(one);
    one.inner.iter().for_each(|inner| flatten(inner, all));
}
