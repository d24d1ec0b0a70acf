//! A verdict as one JSON object.

use crate::explain::{Location, location};
use crate::verdict::{Verdict, reason};
use qaabireed::{Breach, Piece};

/// One object, ended by a line feed.
pub fn line(path: &[u8], verdict: &Verdict, explain: bool) -> Vec<u8> {
    let mut object = Object::new();
    object.string("path", path);
    match verdict {
        Verdict::Accepted { entries, .. } => {
            object.string("outcome", b"accepted");
            object.number("entries", *entries as usize);
        }
        Verdict::Breach { file, breach } => breach_members(&mut object, file, breach),
        Verdict::Refused { file, refusal } => {
            object.string("outcome", b"refused");
            object.number("refusal", refusal.number().into());
            object.string("text", reason(*refusal, file).as_bytes());
        }
        Verdict::Unreadable(reason) => {
            object.string("outcome", b"unreadable");
            object.string("text", reason.as_bytes());
        }
    }
    if explain && let Some(location) = location(verdict) {
        object.raw("explain", &explained(&location));
    }
    (object.finish() + "\n").into_bytes()
}

/// Rule, place, names, text and entry count.
fn breach_members(object: &mut Object, file: &[u8], breach: &Breach) {
    object.string("outcome", b"breach");
    object.number("rule", breach.rule.number().into());
    object.number("place", breach.place as usize);
    let names = breach.names.iter().flatten();
    let names = names.map(|place| name_object(file, *place as usize));
    object.raw("names", &array(names));
    object.string("text", &breach.message);
    object.number("entries", breach.entries as usize);
}

/// A name of a readable file and the place of its count byte.
fn name_object(file: &[u8], place: usize) -> String {
    let count = file.get(place).map_or(0, |count| usize::from(*count));
    let bytes = file.get(place + 1..place + 1 + count).unwrap_or(&[]);
    let mut object = Object::new();
    object.string("name", bytes);
    object.number("place", place);
    object.finish()
}

/// Where a place lies.
fn explained(location: &Location) -> String {
    let mut object = Object::new();
    object.number("place", location.place);
    object.string("section", location.section.as_bytes());
    for piece in [&location.flow, &location.stitch].into_iter().flatten() {
        if let Some(name) = &piece.name {
            object.string(piece.title, name.as_bytes());
        }
    }
    object.raw("path", &array(location.path.iter().map(piece_object)));
    object.finish()
}

/// One piece of a path.
fn piece_object(piece: &Piece) -> String {
    let mut object = Object::new();
    object.string("piece", piece.title.as_bytes());
    if let Some(name) = &piece.name {
        object.string("name", name.as_bytes());
    }
    object.number("place", piece.start);
    object.finish()
}

/// Values in brackets.
fn array(values: impl Iterator<Item = String>) -> String {
    format!("[{}]", values.collect::<Vec<_>>().join(","))
}

/// An object as it is written.
struct Object {
    text: String,
}

impl Object {
    /// An object without members.
    fn new() -> Self {
        Object {
            text: "{".to_string(),
        }
    }

    /// A member whose value is JSON already.
    fn raw(&mut self, key: &str, value: &str) {
        if self.text.len() > 1 {
            self.text.push(',');
        }
        self.text.push_str(&format!("\"{key}\":{value}"));
    }

    /// A member with a number.
    fn number(&mut self, key: &str, value: usize) {
        self.raw(key, &value.to_string());
    }

    /// A member with a string; bytes that are not UTF-8 are also given in hexadecimal.
    fn string(&mut self, key: &str, bytes: &[u8]) {
        self.raw(key, &quoted(&String::from_utf8_lossy(bytes)));
        if std::str::from_utf8(bytes).is_err() {
            let hex: String = bytes.iter().map(|byte| format!("{byte:02x}")).collect();
            self.raw(&format!("{key}_hex"), &quoted(&hex));
        }
    }

    /// The whole object.
    fn finish(mut self) -> String {
        self.text.push('}');
        self.text
    }
}

/// A string in quotes, escaped as RFC 8259 asks.
fn quoted(text: &str) -> String {
    let mut quoted = String::from("\"");
    for character in text.chars() {
        match character {
            '"' => quoted.push_str("\\\""),
            '\\' => quoted.push_str("\\\\"),
            '\n' => quoted.push_str("\\n"),
            ' '.. => quoted.push(character),
            _ => quoted.push_str(&format!("\\u{:04x}", u32::from(character))),
        }
    }
    quoted.push('"');
    quoted
}

#[cfg(test)]
mod tests {
    use super::*;

    #[test]
    fn quotes_backslashes_and_controls_are_escaped() {
        assert_eq!(quoted("a\"b\\c\nd\u{1}é"), r#""a\"b\\c\nd\u0001é""#);
    }

    #[test]
    fn bytes_that_are_not_utf8_are_given_twice() {
        let mut object = Object::new();
        object.string("name", b"caf\xe9");
        let text = object.finish();
        assert_eq!(text, "{\"name\":\"caf\u{fffd}\",\"name_hex\":\"636166e9\"}");
    }
}
