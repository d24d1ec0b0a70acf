//! The numbers that reading keeps: of each record met that some step visits its place, its sort, where it stands, and whether it leaves.

use super::reader::{Class, Record};

/// The numbers kept of the records met, front to back.
pub fn numbers(file: &[u8], met: &[Record]) -> Vec<u32> {
    (0..met.len())
        .filter_map(|at| number(file, met, at))
        .collect()
}

/// The place, and 2^20 times: the sort, 16 directly in a branch, 32 with a label, 64 for a choice that leaves. A record without a sort has no number.
fn number(file: &[u8], met: &[Record], at: usize) -> Option<u32> {
    let record = &met[at];
    let around = around(met, at);
    let sort = sort(record, &around)?;
    let branch = u32::from(in_branch(record, &around));
    let label = u32::from(has_label(record));
    let leaving = u32::from(leaves(file, record));
    Some(record.place + ((sort + 16 * branch + 32 * label + 64 * leaving) << 20))
}

/// The records around one, the nearest first: of those met before it the last of each smaller depth.
fn around(met: &[Record], at: usize) -> Vec<&Record> {
    let mut around = Vec::new();
    let mut depth = met[at].depth;
    for earlier in met[..at].iter().rev() {
        if depth == 1 {
            break;
        }
        if earlier.depth < depth {
            around.push(earlier);
            depth = earlier.depth;
        }
    }
    around
}

/// The sort: 1 temp, 2 divert, 3 tunnel, 4 thread, 5 call, 6 variable, 7 argument, 8 choice, 9 gather.
fn sort(record: &Record, around: &[&Record]) -> Option<u32> {
    match record.class {
        Class::Node => match record.kind {
            3..=5 => Some(u32::from(record.kind) - 1),
            13 if record.first == Some(1) => Some(1),
            14 => Some(8),
            15 => Some(9),
            16 => Some(5),
            _ => None,
        },
        Class::Condition => (record.kind == 1).then_some(5),
        Class::Expression => match record.kind {
            1 if is_visited(around) => Some(6),
            2 if stands_in(around, &[3, 4, 5]) => Some(7),
            5 if is_visited(around) => Some(5),
            _ => None,
        },
    }
}

/// A node of one of these kinds.
fn is_node(record: &Record, kinds: &[u8]) -> bool {
    record.class == Class::Node && kinds.contains(&record.kind)
}

/// It stands directly in a node of one of these kinds.
fn stands_in(around: &[&Record], kinds: &[u8]) -> bool {
    around.first().is_some_and(|one| is_node(one, kinds))
}

/// Calls go into the expressions of these nodes, at all depths.
fn is_visited(around: &[&Record]) -> bool {
    let node = around.iter().find(|one| one.class == Class::Node);
    node.is_some_and(|node| is_node(node, &[2, 8, 9, 12, 13, 14, 16]))
}

/// A node directly in a list of a conditional or a switch.
fn in_branch(record: &Record, around: &[&Record]) -> bool {
    record.class == Class::Node && stands_in(around, &[8, 9])
}

/// A gather, or a choice whose flag says that a label follows.
fn has_label(record: &Record) -> bool {
    is_node(record, &[15]) || is_node(record, &[14]) && record.first == Some(1)
}

/// A choice whose body's last node that is no Newline is of kinds 3, 6, 7, 11 or 12.
fn leaves(file: &[u8], record: &Record) -> bool {
    is_node(record, &[14]) && choice_body(file, record).is_some_and(last_leaves)
}

/// The second list of a choice, if it fits.
fn choice_body<'f>(file: &'f [u8], choice: &Record) -> Option<&'f [u8]> {
    let (payload, _) = sized(file.get(choice.place as usize + 1..)?)?;
    let label = match payload {
        [1, count, ..] => 1 + usize::from(*count),
        _ => 0,
    };
    let (_, rest) = sized(payload.get(1 + label..)?)?;
    Some(sized(rest)?.0)
}

/// The last node of a list that is no Newline leaves.
fn last_leaves(mut list: &[u8]) -> bool {
    let mut leaves = false;
    while let Some((&kind, rest)) = list.split_first()
        && let Some((_, behind)) = sized(rest)
    {
        if kind != 1 {
            leaves = [3, 6, 7, 11, 12].contains(&kind);
        }
        list = behind;
    }
    leaves
}

/// The bytes behind a 32-bit length that has them, and those after them.
fn sized(bytes: &[u8]) -> Option<(&[u8], &[u8])> {
    let (length, rest) = bytes.split_first_chunk()?;
    rest.split_at_checked(u32::from_le_bytes(*length) as usize)
}
