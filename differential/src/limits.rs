//! Files at the limits and just past them: length, depth, names and lent buffers.

use crate::ast::ParsedStory;
use crate::layout::{self, LONGEST_FILE, TRAILER, record, sized};
use crate::random::Random;
use crate::story::{call, divert, function, jump, knot, output, story};

/// The longest name.
pub fn long_name() -> String {
    "n".repeat(255)
}

/// A file of exactly so many bytes, most of them names of 255 bytes.
pub fn file_of_length(length: usize) -> Vec<u8> {
    let mut globals = Vec::new();
    let wanted = length - TRAILER;
    while globals.len() < wanted {
        let rest = (wanted - globals.len()).min(256);
        let text = format!("{:0>255}", globals.len());
        globals.extend(layout::name(&text.as_bytes()[..rest - 1]));
    }
    layout::file(&globals, &[], &[], &[])
}

/// A readable file of this length, or a copy that is one byte longer than any readable one.
pub fn long_file(random: &mut Random) -> Vec<u8> {
    match random.below(3) {
        0 => file_of_length(LONGEST_FILE + 1),
        1 => file_of_length(LONGEST_FILE - random.below(300)),
        _ => file_of_length(LONGEST_FILE),
    }
}

/// The ways to nest records.
pub const NESTINGS: usize = 9;

/// Root records, the innermost of which is empty and has exactly this depth.
pub fn nested(way: usize, depth: usize) -> Vec<u8> {
    nested_around(way, depth, &record(0, &[]))
}

/// Whether the innermost record of a way is a node; else it is an expression.
pub fn nests_nodes(way: usize) -> bool {
    (1..=4).contains(&way)
}

/// Root records around the bytes of an innermost record of this depth.
pub fn nested_around(way: usize, depth: usize, innermost: &[u8]) -> Vec<u8> {
    let around = |wrap: fn(usize, &[u8]) -> Vec<u8>| wrapped(depth, innermost, wrap);
    match way {
        0 => around(|level, inside| record(if level == 1 { 2 } else { 3 }, inside)),
        1 => around(|_, inside| record(10, &sized(inside))),
        2 => around(|_, inside| record(14, &choice_payload(&[], inside))),
        3 => around(|_, inside| record(8, &branch_payload(inside))),
        4 => around(|_, inside| record(9, &switch_payload(inside))),
        5 => around(|level, inside| match level {
            1 => record(3, &[&layout::name(b"END"), inside].concat()),
            _ => record(5, &[&layout::name(b"f"), inside].concat()),
        }),
        6 => around(|level, inside| match level {
            1 => record(12, inside),
            _ => record(6, &[&record(0, &[]), inside].concat()),
        }),
        7 => around(|level, inside| match level {
            1 => record(14, &choice_payload(inside, &[])),
            _ => record(if level == 2 { 2 } else { 4 }, inside),
        }),
        _ => around(|level, inside| match level {
            1 => record(8, &conditional_payload(inside, &[])),
            _ => record(if level == 2 { 2 } else { 4 }, inside),
        }),
    }
}

/// Bytes inside so many records that what they hold has a depth.
fn wrapped(depth: usize, innermost: &[u8], wrap: fn(usize, &[u8]) -> Vec<u8>) -> Vec<u8> {
    let levels = (1..depth).rev();
    levels.fold(innermost.to_vec(), |inside, level| wrap(level, &inside))
}

/// A choice's payload without label.
fn choice_payload(conditions: &[u8], body: &[u8]) -> Vec<u8> {
    [vec![0], sized(conditions), sized(body)].concat()
}

/// A conditional's payload without second list.
fn conditional_payload(condition: &[u8], body: &[u8]) -> Vec<u8> {
    [condition, &sized(body), &[0]].concat()
}

/// A conditional's payload whose second list holds the bytes.
fn branch_payload(inside: &[u8]) -> Vec<u8> {
    [record(0, &[]), sized(&[]), vec![1], sized(inside)].concat()
}

/// A switch's payload whose only branch holds the bytes.
fn switch_payload(inside: &[u8]) -> Vec<u8> {
    [record(0, &[]), vec![0], sized(inside)].concat()
}

/// A file with records near the greatest depth in the root, a flow or a stitch.
pub fn deep_file(random: &mut Random) -> Vec<u8> {
    let depth = *random.pick(&[62, 63, 64, 64, 65, 65, 66]);
    let way = random.below(NESTINGS);
    let body = random.below(3);
    let flaw = match random.below(9) {
        0 => record(17, &[]),
        1 => record(7, &[0]),
        2 => record(0, &[0]),
        3 => vec![0, 0],
        4 => [&[9], layout::number(1).as_slice()].concat(),
        _ => record(0, &[]),
    };
    placed(body, &nested_around(way, depth, &flaw))
}

/// A readable file with records of the greatest depth.
pub fn deepest_file(random: &mut Random) -> Vec<u8> {
    let records = nested(random.below(NESTINGS), 64);
    placed(random.below(3), &records)
}

/// Records as the root, a flow's list or a stitch's list of a file.
pub fn placed(body: usize, records: &[u8]) -> Vec<u8> {
    let fields = |list: &[u8]| [layout::name(b"k"), vec![0, 0], sized(list)].concat();
    let flow = |own: &[u8], stitches: &[u8]| sized(&[&[0], &fields(own)[..], stitches].concat());
    match body {
        0 => layout::file(&[], &[], records, &[]),
        1 => layout::file(&[], &[], &[], &flow(records, &[])),
        _ => layout::file(&[], &[], &[], &flow(&[], &sized(&fields(records)))),
    }
}

/// A file of 0 to 20 bytes.
pub fn short_file(random: &mut Random) -> Vec<u8> {
    let mut file = layout::file(&[], &[], &[], &[]);
    match random.below(4) {
        0 => file.truncate(random.below(20)),
        1 => file.drain(..1 + random.below(19)).for_each(drop),
        2 => file[random.below(20)] ^= 1,
        _ => {}
    }
    file
}

/// A story whose breach has one or two names of 255 bytes, the longest messages.
pub fn long_message(random: &mut Random) -> ParsedStory {
    let long = long_name();
    let far = "m".repeat(255);
    match random.below(5) {
        0 => story(vec![], vec![function(&long, vec![divert(&far)])]),
        1 => story(
            vec![],
            vec![knot("k", vec![jump(4, &long, vec![])]).with_parameters(&[&long])],
        ),
        2 => story(vec![divert(&long)], vec![]).with_globals(&[&far]),
        3 => story(vec![output(call(&long, vec![]))], vec![knot(&long, vec![])]),
        _ => story(vec![divert(&long)], vec![]).with_globals(&[&format!("a.{}", &long[2..])]),
    }
}
