//! The stored files of the programs under the gate: up to date, within the programs' buffers, and with every kind.

use differential::ast::{Condition, Expression, Node};
use differential::encode::encode;
use differential::second::{self, Lookup};
use differential::stored::{self, kept, reader, replay, whole};
use differential::story::{nodes_mut, output, story};
use differential::tally::title;
use differential::vectors;
use std::collections::BTreeSet;

/// The bytes for standard input that each program lends itself.
const INPUT_BUFFERS: [(&str, usize); 3] = [
    ("reader_runs", 524_288),
    ("vectors", 131_072),
    ("lookup_runs", 32_768),
];

/// The bytes for a file and for a target, and the numbers of the index that `lookup_runs` lends itself.
const LOOKUP_BUFFERS: [usize; 3] = [1024, 1024, 3072];

/// The kind byte of a node.
fn kind(node: &Node) -> u8 {
    encode(&story(vec![node.clone()], vec![])).unwrap()[0]
}

/// The kind byte of an expression.
fn expression_kind(value: &Expression) -> u8 {
    encode(&story(vec![output(value.clone())], vec![])).unwrap()[5]
}

#[test]
fn the_story_has_every_kind() {
    let mut nodes = BTreeSet::new();
    let mut expressions = BTreeSet::new();
    let mut conditions = BTreeSet::new();
    nodes_mut(&mut whole::whole().root().to_vec(), &mut |node| {
        nodes.insert(kind(node));
        match node {
            Node::OutputExpression(value) => {
                expressions.insert(expression_kind(value));
            }
            Node::Conditional { condition, .. } => {
                conditions.insert(match condition {
                    Condition::Bool(_) => 0,
                    Condition::FunctionCall(_) => 1,
                    Condition::Expression(_) => 2,
                });
            }
            _ => {}
        }
    });
    assert_eq!(nodes, (0..17).collect());
    assert_eq!(expressions, (0..7).collect());
    assert_eq!(conditions, (0..3).collect());
}

#[test]
fn every_cut_and_every_refusal_is_among_the_files() {
    let whole = encode(&whole::whole()).unwrap();
    let files: BTreeSet<Vec<u8>> = reader::files().into_iter().collect();
    for length in 0..=whole.len() {
        assert!(files.contains(&whole[..length]));
    }
    assert_eq!(second::refusal(&whole), None);
    let refused: BTreeSet<u8> = files.iter().filter_map(|f| second::refusal(f)).collect();
    assert_eq!(refused, (1..=6).collect());
}

/// Sort, branch, label and leaving of each record met of some files that is not plain, up to the refusal where they are refused.
fn marks<'f>(files: impl Iterator<Item = &'f Vec<u8>>) -> BTreeSet<u32> {
    let numbers = files.flat_map(|file| second::kept(file).numbers);
    numbers.map(|number| number >> 20).collect()
}

#[test]
fn every_sort_is_met_in_branches_and_elsewhere_of_readable_and_of_refused_files() {
    let (gather, labelled, leaving) = (9 + 32, 8 + 32, 8 + 64);
    let nodes = [1, 2, 3, 4, 5, 8, labelled, leaving, labelled + 64, gather];
    let (variable, argument) = (6, 7);
    let mut expected = BTreeSet::from([variable, argument]);
    expected.extend(nodes);
    expected.extend(nodes.map(|mark| mark + 16));
    let files = reader::files();
    let refused = |file: &&Vec<u8>| second::refusal(file).is_some();
    assert_eq!(marks(files.iter().filter(refused)), expected);
    assert_eq!(marks(files.iter().filter(|file| !refused(file))), expected);
}

#[test]
fn files_have_fewer_numbers_than_are_lent_as_many_and_more() {
    let files = reader::files();
    let kept = files.iter().map(|file| second::kept(file));
    let readable = kept.filter(|kept| kept.refusal.is_none());
    let counts: BTreeSet<usize> = readable.map(|kept| kept.numbers.len()).collect();
    for lent in kept::LENT {
        assert!(
            [lent - 1, lent, lent + 1]
                .iter()
                .all(|n| counts.contains(n))
        );
    }
}

/// A stored file of a program.
fn stored_file(program: &str, name: &str) -> Vec<u8> {
    let crates = concat!(env!("CARGO_MANIFEST_DIR"), "/../crates");
    std::fs::read(format!("{crates}/{program}/{name}")).unwrap()
}

#[test]
fn the_files_of_every_program_are_what_the_command_writes() {
    for program in stored::PROGRAMS {
        let files = stored::stored(program).unwrap();
        let said = format!("{program}: run differential/stored");
        assert!(stored_file(program, "stdin") == files.input, "{said}");
        if let Some(output) = files.output {
            assert!(stored_file(program, "stdout") == output, "{said}");
        }
    }
}

#[test]
fn the_input_of_every_program_fits_its_buffers() {
    assert_eq!(INPUT_BUFFERS.map(|(program, _)| program), stored::PROGRAMS);
    for (program, buffer) in INPUT_BUFFERS {
        assert!(stored_file(program, "stdin").len() < buffer, "{program}");
    }
    for lookup in vectors::lookups() {
        let lengths = [lookup.input.len(), lookup.target.len(), lookup.index];
        let fits = lengths
            .iter()
            .zip(LOOKUP_BUFFERS)
            .all(|(one, most)| *one <= most);
        assert!(fits, "{}", lookup.name);
    }
}

#[test]
fn every_check_of_the_list_is_replayed() {
    let items = replay::items(&vectors::text());
    let vectors = vectors::vectors();
    let calls = vectors::calls();
    assert_eq!(items.len(), vectors.len() + calls.len());
    let inputs = vectors.iter().map(|vector| &vector.input);
    let inputs = inputs.chain(calls.iter().map(|call| &call.vector.input));
    for (item, input) in items.iter().zip(inputs) {
        assert_eq!(item.input, *input);
        let [index, message] = item.lent;
        let answer = second::check(input, index, message);
        assert_eq!(item.lines[0], second::line(&answer));
    }
}

/// A lookup's target as `lookup_runs` writes it: short printable text in quotes, of others the length.
fn shown(target: &[u8]) -> String {
    let printable = target.iter().all(|byte| (0x20..0x7f).contains(byte));
    match printable && target.len() <= 32 {
        true => format!("\"{}\"", String::from_utf8_lossy(target)),
        false => format!("{} bytes", target.len()),
    }
}

/// Whether what `lookup_runs` found is one of the answers that the list allows.
fn allowed(found: &str, expected: &Result<Lookup, u8>) -> bool {
    match expected {
        Err(refusal) => found == format!("refused {refusal}"),
        Ok(lookup @ (Lookup::Exact(entries) | Lookup::Ending(entries))) => entries
            .iter()
            .any(|entry| found == format!("{} {entry}", title(lookup))),
        Ok(lookup) => found == title(lookup),
    }
}

#[test]
fn every_lookup_of_the_list_is_answered_as_the_list_allows() {
    let output = String::from_utf8(stored_file("lookup_runs", "stdout")).unwrap();
    let lookups = vectors::lookups();
    let listed: Vec<&str> = output.lines().filter(|l| l.contains(", listed ")).collect();
    assert_eq!(listed.len(), lookups.len());
    for (line, lookup) in listed.into_iter().zip(lookups) {
        let (name, rest) = line.split_once(", listed ").unwrap();
        assert_eq!(name, lookup.name);
        let target = format!(": {}: ", shown(&lookup.target));
        let (_, answer) = rest.split_once(&target).expect(line);
        let (found, numbers) = answer.split_once(", index ").expect(line);
        assert!(allowed(found, &lookup.expected), "{line}");
        let entries = second::entries(&lookup.input, lookup.index).unwrap_or_default();
        let start = format!("{} filled with ", lookup.index);
        let end = format!(", entries {}, rest kept", entries.len());
        assert!(
            numbers.starts_with(&start) && numbers.ends_with(&end),
            "{line}"
        );
    }
}
