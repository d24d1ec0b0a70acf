//! The worked example of docs/FORMAT.md is what the encoder writes, and it is accepted.

use differential::ast::{Condition, Node, ParsedStory};
use differential::encode::encode;
use differential::second;
use differential::story::*;

const PAGE: &str = include_str!("../../docs/FORMAT.md");

/// The story of the worked example.
fn example() -> ParsedStory {
    let test = Node::Conditional {
        condition: Condition::Expression(variable("gold")),
        when_true: vec![divert("door")],
        when_false: None,
    };
    let look = choice(Some("look"), vec![divert("hall.dark")]);
    let dark = knot("dark", vec![temp("n"), divert("END")]);
    let hall = knot("hall", vec![test, look])
        .with_parameters(&["door"])
        .with_marks(&["door"])
        .with_stitches(vec![dark]);
    let story = story(vec![jump(3, "hall", vec![target("hall")])], vec![hall]);
    story.with_globals(&["gold"]).with_externals(&["ring"])
}

/// The rows of the worked example's table: place and bytes.
fn rows() -> Vec<(usize, Vec<u8>)> {
    let (_, section) = PAGE.split_once("## A worked example").unwrap();
    let (section, _) = section.split_once("\n## ").unwrap();
    let rows = section.lines().filter(|line| line.starts_with("| "));
    let cells = rows.map(|line| line.split('|').map(str::trim).collect::<Vec<_>>());
    let table = cells.filter(|cells| cells[1].parse::<usize>().is_ok());
    table
        .map(|cells| {
            let bytes = cells[2].split(' ');
            let bytes = bytes.map(|pair| u8::from_str_radix(pair, 16).unwrap());
            (cells[1].parse().unwrap(), bytes.collect())
        })
        .collect()
}

#[test]
fn the_table_has_every_byte_of_the_encoded_example() {
    let rows = rows();
    let mut place = 0;
    for (stated, bytes) in &rows {
        assert_eq!(*stated, place);
        place += bytes.len();
    }
    let bytes: Vec<u8> = rows.into_iter().flat_map(|(_, bytes)| bytes).collect();
    assert_eq!(bytes, encode(&example()).unwrap());
}

#[test]
fn the_example_is_accepted() {
    let file = encode(&example()).unwrap();
    assert_eq!(second::program_line(&file), b"accepted");
}

#[test]
fn the_page_names_the_entries_of_the_example() {
    let file = encode(&example()).unwrap();
    let entries = second::entries(&file, 3 * file.len()).unwrap();
    let spellings = entries.iter().map(|entry| second::spelling(&file, entry));
    let spellings: Vec<String> = spellings.map(|s| String::from_utf8(s).unwrap()).collect();
    let listed = format!("`{}`", spellings.join("`, `"));
    assert!(PAGE.contains(&listed), "{listed}");
}
