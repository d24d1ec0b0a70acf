//! The stored list for a program: every `vector` and `call` of the list as an input, and the lines that it must write.

use super::{Stored, short};
use crate::second::MESSAGE;

/// One check of the list.
#[derive(Debug, Clone, Default)]
pub struct Item {
    /// The block's first line: `vector` or `call`, and its name.
    pub title: String,
    /// The numbers of the index and the bytes of the message buffer that are lent.
    pub lent: [usize; 2],
    pub input: Vec<u8>,
    /// The line, and behind it those on the result's numbers.
    pub lines: Vec<Vec<u8>>,
}

/// The checks of a list, one after the other, and their lines.
///
/// In the input a check is three numbers of two bytes (what is lent, and the file's length) and the file.
/// In the output it is its lines as in the list, a line for the part of the buffers that must stay, and an empty line.
pub fn stored(list: &str) -> Stored {
    let mut input = Vec::new();
    let mut output = Vec::new();
    for item in items(list) {
        let [index, message] = item.lent;
        for number in [index, message, item.input.len()] {
            input.extend(short(number));
        }
        input.extend(&item.input);
        for line in &item.lines {
            output.extend(line);
            output.push(b'\n');
        }
        output.extend(b"rest kept\n\n");
    }
    Stored {
        input,
        output: Some(output),
    }
}

/// The checks of a list, in order.
pub fn items(list: &str) -> Vec<Item> {
    let blocks = list.split("\n\n");
    let checks = blocks.filter(|block| block.starts_with("vector ") || block.starts_with("call "));
    checks.map(item).collect()
}

/// A block of the list.
fn item(block: &str) -> Item {
    let mut item = Item::default();
    let mut lent = None;
    for line in block.lines() {
        let (word, rest) = line.split_once(' ').unwrap_or((line, ""));
        match word {
            "vector" | "call" => item.title = line.to_string(),
            "input" => item.input = bytes(rest),
            "lent" => lent = Some(pair(rest)),
            "line" => item.lines.push(unescaped(rest)),
            "entries" | "names" | "index" => item.lines.push(line.as_bytes().to_vec()),
            _ => {}
        }
    }
    let least = [3 * item.input.len().saturating_sub(20), MESSAGE];
    item.lent = lent.unwrap_or(least);
    item
}

/// Bytes in hexadecimal.
fn bytes(text: &str) -> Vec<u8> {
    let pairs = text.as_bytes().chunks(2);
    pairs.map(byte).collect()
}

/// Two hexadecimal digits.
fn byte(pair: &[u8]) -> u8 {
    let text = std::str::from_utf8(pair).expect("the list is ASCII");
    u8::from_str_radix(text, 16).expect("the list has pairs of hexadecimal digits")
}

/// Two decimal numbers.
fn pair(text: &str) -> [usize; 2] {
    let (first, second) = text.split_once(' ').expect("two lengths are lent");
    [first, second].map(|one| one.parse().expect("a lent length is a number"))
}

/// A line of the list with \xNN as the byte that it stands for.
fn unescaped(text: &str) -> Vec<u8> {
    let mut parts = text.split("\\x");
    let mut line = parts.next().unwrap_or("").as_bytes().to_vec();
    for part in parts {
        let (digits, rest) = part.as_bytes().split_at(2);
        line.push(byte(digits));
        line.extend(rest);
    }
    line
}
