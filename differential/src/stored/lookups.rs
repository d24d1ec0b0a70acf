//! The lookups of the stored list for a program that reads their text.

use super::Stored;

/// The `lookup` blocks of a list as they stand there.
pub fn stored(list: &str) -> Stored {
    let blocks: Vec<&str> = blocks(list).collect();
    Stored {
        input: (blocks.join("\n\n") + "\n").into_bytes(),
        output: None,
    }
}

/// The `lookup` blocks of a list, each without the line feed at its end.
pub fn blocks(list: &str) -> impl Iterator<Item = &str> {
    let blocks = list.split("\n\n").map(str::trim_end);
    blocks.filter(|block| block.starts_with("lookup "))
}
