//! What several tests share: the stored list of answers, and samples.

#![allow(dead_code)]

use std::collections::BTreeMap;

/// One block of the stored list: its kind, its name and its lines by their first word.
pub struct Block {
    pub kind: String,
    pub name: String,
    lines: BTreeMap<String, String>,
}

impl Block {
    /// What follows a word, where there is such a line.
    pub fn get(&self, word: &str) -> Option<&str> {
        self.lines.get(word).map(String::as_str)
    }

    /// The bytes of a line in hexadecimal.
    pub fn bytes(&self, word: &str) -> Vec<u8> {
        let hex = self.get(word).expect("the line is there");
        let pairs = hex
            .as_bytes()
            .chunks(2)
            .map(|pair| str::from_utf8(pair).unwrap());
        pairs
            .map(|pair| u8::from_str_radix(pair, 16).unwrap())
            .collect()
    }

    /// The numbers of a line; - is the number for none, and a line that is not there has none.
    pub fn numbers(&self, word: &str) -> Vec<u32> {
        let words = self.get(word).unwrap_or("").split_whitespace();
        words
            .map(|word| {
                if word == "-" {
                    u32::MAX
                } else {
                    word.parse().unwrap()
                }
            })
            .collect()
    }
}

/// All blocks of the stored list, of which there are hundreds.
pub fn stored_list() -> Vec<Block> {
    let path = concat!(
        env!("CARGO_MANIFEST_DIR"),
        "/../../differential/vectors.txt"
    );
    let text = std::fs::read_to_string(path).expect("the stored list is there");
    let blocks = text.split("\n\n").filter(|block| !block.starts_with('#'));
    let blocks: Vec<Block> = blocks
        .filter(|text| !text.trim().is_empty())
        .map(block)
        .collect();
    assert!(blocks.len() > 700, "only {} blocks", blocks.len());
    blocks
}

/// One block.
fn block(text: &str) -> Block {
    let mut lines = text
        .lines()
        .map(|line| line.split_once(' ').unwrap_or((line, "")));
    let (kind, name) = lines.next().expect("a block has a first line");
    Block {
        kind: kind.to_string(),
        name: name.to_string(),
        lines: lines
            .map(|(word, rest)| (word.to_string(), rest.to_string()))
            .collect(),
    }
}

/// A line with what its \xNN stand for.
pub fn unescaped(line: &str) -> Vec<u8> {
    let mut parts = line.split("\\x");
    let mut bytes = parts.next().unwrap_or("").as_bytes().to_vec();
    for part in parts {
        bytes.push(u8::from_str_radix(&part[..2], 16).unwrap());
        bytes.extend(&part.as_bytes()[2..]);
    }
    bytes
}
