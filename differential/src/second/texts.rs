//! The fifteen message texts with names put in.

use super::index::{NONE, name_at};
use super::steps::Breach;

/// The message of a breach.
pub fn message(file: &[u8], breach: &Breach) -> Vec<u8> {
    let names = breach.names.map(|place| match place {
        NONE => &[][..],
        _ => name_at(file, place),
    });
    fill(text(breach.rule), names)
}

/// The text of a rule; 1 and 2 in braces stand for the first and second name.
fn text(rule: u8) -> &'static str {
    match rule {
        1 => "Function '{1}' can only be called as a function, not diverted to",
        2 => "Divert target not found: '-> {1}'",
        3 => "'{1}' hasn't been marked as a function, but it's being called as one",
        4 => "The name '{1}' has already been used for a function.",
        5 => "The name '{1}' has already been used for a var declaration.",
        6 => "The name '{1}' has already been used as a parameter name.",
        7 => "The name '{1}' has already been used for a choice or gather label.",
        8 => "Since '{1}' is used as a variable divert target, it should be marked as: -> {1}",
        9 => "The parameter '{1}' is already a divert target; it shouldn't be preceded by '->'.",
        10 => "A gather point with the same label '{1}' already exists in this scope.",
        11 => "Choices with conditions need to explicitly divert afterwards.",
        12 => "Function '{1}' may not contain stitches.",
        13 => "Function '{1}' may not contain choices.",
        14 => "Function '{1}' may not contain diverts (found '-> {2}').",
        15 => "Unresolved variable: {1}",
        _ => unreachable!("there are fifteen rules"),
    }
}

/// A text with the names in place of {1} and {2}.
fn fill(text: &str, names: [&[u8]; 2]) -> Vec<u8> {
    let mut message = Vec::new();
    let mut rest = text;
    while let Some((before, after)) = rest.split_once('{') {
        message.extend(before.bytes());
        let number = if after.starts_with('1') { 0 } else { 1 };
        message.extend(names[number]);
        rest = &after[2..];
    }
    message.extend(rest.bytes());
    message
}
