//! Files for the numbers that reading keeps: every record in every role, records with a damaged payload, and many records.

use crate::layout::{file, name, record, sized};
use crate::limits::{self, NESTINGS, nested_around, placed};

/// The numbers that the program lends itself for a file: first so many, then so few.
pub const LENT: [usize; 2] = [512, 3];

/// All files, in order.
pub fn files() -> Vec<Vec<u8>> {
    let mut files = nodes_in_lists();
    files.extend(expressions_in_nodes());
    files.extend(bodies_of_choices());
    files.extend(damaged_payloads());
    files.extend(damaged_behind());
    files.extend(deep());
    files.extend(LENT.iter().flat_map(|lent| counted(*lent)));
    files
}

/// A constant, or a condition that is one, or a node without payload.
fn constant() -> Vec<u8> {
    record(0, &[])
}

/// A variable; as a node it is refused.
fn variable() -> Vec<u8> {
    record(1, &name(b"v"))
}

/// A gather; as an expression it is refused.
fn gather() -> Vec<u8> {
    record(15, &name(b"g"))
}

/// A Newline.
fn newline() -> Vec<u8> {
    record(1, &[])
}

/// Payloads of nodes, each with its kind: every kind, every mode, with label and without, leaving and not.
fn nodes() -> Vec<(u8, Vec<u8>)> {
    let mut nodes = vec![
        (0, vec![]),
        (1, vec![]),
        (2, constant()),
        (6, vec![]),
        (8, conditional(&constant(), &[], None)),
        (9, constant()),
        (10, sized(&[])),
        (11, vec![]),
        (12, constant()),
        (14, choice(None, &[], &[])),
        (14, choice(Some(b"c"), &[], &[])),
        (14, choice(None, &[], &record(6, &[]))),
        (14, choice(Some(b"c"), &[], &record(6, &[]))),
        (15, name(b"g")),
    ];
    nodes.extend([3, 4, 5, 7, 16].map(|kind| (kind, name(b"k"))));
    nodes.extend([0, 1, 2, 3].map(|mode| (13, assignment(mode, &constant()))));
    nodes
}

/// One of each kind of node, mode, label and leaving, one behind the other.
fn all_nodes() -> Vec<u8> {
    let records = nodes().into_iter();
    let records = records.map(|(kind, payload)| record(kind, &payload));
    records.collect::<Vec<_>>().concat()
}

/// Every kind of expression, and inside those that hold some a variable, a target and a call.
fn expressions() -> Vec<Vec<u8>> {
    let target = record(2, &name(b"k"));
    let call = record(5, &[name(b"f"), variable()].concat());
    let inner = [name(b"f"), variable(), target.clone(), call.clone()];
    vec![
        constant(),
        variable(),
        target.clone(),
        record(3, &variable()),
        record(4, &call),
        record(5, &inner.concat()),
        record(6, &[target, call].concat()),
    ]
}

/// Every kind of condition.
fn conditions() -> Vec<Vec<u8>> {
    let mut conditions = vec![constant(), record(1, &name(b"f"))];
    conditions.extend(expressions().iter().map(|one| record(2, one)));
    conditions
}

/// A conditional's payload.
fn conditional(condition: &[u8], first: &[u8], second: Option<&[u8]>) -> Vec<u8> {
    let rest = match second {
        None => vec![0],
        Some(list) => [&[1], &sized(list)[..]].concat(),
    };
    [condition, &sized(first), &rest].concat()
}

/// A switch's payload on a constant, with one branch.
fn switch(case: Option<&[u8]>, list: &[u8]) -> Vec<u8> {
    let flagged = match case {
        None => vec![0],
        Some(case) => [&[1], case].concat(),
    };
    [constant(), flagged, sized(list)].concat()
}

/// A choice's payload.
fn choice(label: Option<&[u8]>, conditions: &[u8], body: &[u8]) -> Vec<u8> {
    let flagged = match label {
        None => vec![0],
        Some(label) => [&[1], &name(label)[..]].concat(),
    };
    [flagged, sized(conditions), sized(body)].concat()
}

/// An assignment's payload.
fn assignment(mode: u8, value: &[u8]) -> Vec<u8> {
    [&[mode], &name(b"t")[..], value].concat()
}

/// Nodes in each list that a node can have.
fn in_lists(nodes: &[u8]) -> Vec<Vec<u8>> {
    vec![
        record(8, &conditional(&constant(), nodes, None)),
        record(8, &conditional(&constant(), &gather(), Some(nodes))),
        record(9, &switch(None, nodes)),
        record(9, &switch(Some(&variable()), nodes)),
        record(10, &[sized(&gather()), sized(nodes)].concat()),
        record(14, &choice(None, &constant(), nodes)),
        record(14, &choice(Some(b"c"), &[], nodes)),
    ]
}

/// Every node directly in each body, in each list of a node, and in each list of a node in each list of a node.
fn nodes_in_lists() -> Vec<Vec<u8>> {
    let mut bodies = vec![all_nodes(); 3];
    for list in in_lists(&all_nodes()) {
        bodies.extend(in_lists(&list));
        bodies.push(list);
    }
    in_bodies(bodies)
}

/// The bodies in files: the first as a root, the next as a flow's list, the next as a stitch's, and again.
fn in_bodies(bodies: Vec<Vec<u8>>) -> Vec<Vec<u8>> {
    let numbered = bodies.iter().enumerate();
    numbered.map(|(at, body)| placed(at % 3, body)).collect()
}

/// Every expression and every condition in each place that a node has for one.
fn expressions_in_nodes() -> Vec<Vec<u8>> {
    let mut places: Vec<Vec<Vec<u8>>> = Vec::new();
    let mut put = |all: Vec<Vec<u8>>, place: &dyn Fn(&[u8]) -> Vec<u8>| {
        places.push(all.iter().map(|one| place(one)).collect());
    };
    for kind in [2, 9, 12] {
        put(expressions(), &|one| record(kind, one));
    }
    for kind in [3, 4, 5, 7, 16] {
        let named = |one: &[u8]| [&name(b"k"), one, one].concat();
        put(expressions(), &|one| record(kind, &named(one)));
    }
    put(expressions(), &|one| record(9, &switch(Some(one), &[])));
    put(expressions(), &|one| record(13, &assignment(0, one)));
    put(expressions(), &|one| record(13, &assignment(1, one)));
    put(conditions(), &|one| {
        record(8, &conditional(one, &gather(), None))
    });
    put(conditions(), &|one| {
        record(
            14,
            &choice(
                None,
                &[one, one].concat(),
                &[gather(), record(6, &[])].concat(),
            ),
        )
    });
    in_bodies(places.iter().map(|place| place.concat()).collect())
}

/// Choices with each node last in their body, alone, before Newlines and behind a node that leaves.
fn bodies_of_choices() -> Vec<Vec<u8>> {
    let mut bodies = Vec::new();
    for (kind, payload) in nodes() {
        let last = record(kind, &payload);
        let ends = [
            last.clone(),
            [&last[..], &newline(), &newline()].concat(),
            [record(11, &[]), last].concat(),
        ];
        bodies.push(
            ends.map(|end| record(14, &choice(None, &[], &end)))
                .concat(),
        );
    }
    in_bodies(bodies)
}

/// Behind a gather, in a branch: each node with its payload cut at every length, with a byte more, and with another first byte.
fn damaged_payloads() -> Vec<Vec<u8>> {
    let mut bodies = Vec::new();
    for (kind, payload) in nodes() {
        let mut damaged: Vec<Vec<u8>> = Vec::new();
        damaged.extend((0..payload.len()).map(|length| payload[..length].to_vec()));
        damaged.push([&payload[..], &[0]].concat());
        if let [_, rest @ ..] = &payload[..] {
            damaged.push([&[2], rest].concat());
            damaged.push([&[4], rest].concat());
        }
        for payload in damaged {
            let list = [gather(), record(kind, &payload), gather()].concat();
            bodies.push(record(8, &conditional(&constant(), &list, None)));
        }
    }
    in_bodies(bodies)
}

/// Every node, and behind it what is refused: an unknown kind, a byte left over, a payload that is cut, a header that is cut.
fn damaged_behind() -> Vec<Vec<u8>> {
    let refused = [
        [record(17, &[]), gather()].concat(),
        [record(0, &[0]), gather()].concat(),
        [vec![15, 255, 0, 0, 0], gather()].concat(),
        vec![15, 0],
    ];
    let bodies = refused.map(|behind| [all_nodes(), behind].concat());
    in_bodies(bodies.to_vec())
}

/// A record that is kept at the greatest depth, and one deeper.
fn deep() -> Vec<Vec<u8>> {
    let mut bodies = Vec::new();
    for way in 0..NESTINGS {
        let innermost = match limits::nests_nodes(way) {
            true => gather(),
            false => variable(),
        };
        bodies.push(nested_around(way, 64, &innermost));
        bodies.push(nested_around(way, 65, &innermost));
    }
    in_bodies(bodies)
}

/// One record less than fits, as many as fit, and one more; each with a plain one behind it.
fn counted(lent: usize) -> Vec<Vec<u8>> {
    let pair = [record(15, &[0]), record(0, &[])].concat();
    let counts = [lent - 1, lent, lent + 1];
    let bodies = counts.map(|count| pair.repeat(count));
    bodies.map(|body| file(&[], &[], &body, &[])).to_vec()
}
