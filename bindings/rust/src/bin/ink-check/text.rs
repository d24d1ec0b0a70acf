//! A verdict as lines of text.

use crate::explain::{Location, location};
use crate::verdict::{Verdict, reason};
use qaabireed::{Piece, Sort, shown};

/// `PATH: VERDICT`, and where it lies if that is asked for.
pub fn line(path: &[u8], verdict: &Verdict, explain: bool) -> Vec<u8> {
    let mut text = format!(": {}\n", described(verdict));
    if explain && let Some(location) = location(verdict) {
        text.push_str(&explained(verdict, &location));
    }
    [path_shown(path), text.into_bytes()].concat()
}

/// A path as it was given, but with `\\xNN` for control characters, and quotes where it is empty.
pub fn path_shown(path: &[u8]) -> Vec<u8> {
    if path.is_empty() {
        return b"''".to_vec();
    }
    let mut text = Vec::with_capacity(path.len());
    for chunk in path.utf8_chunks() {
        for character in chunk.valid().chars() {
            let mut bytes = [0; 4];
            let bytes = character.encode_utf8(&mut bytes).as_bytes();
            match character.is_control() {
                true => text.extend(shown(bytes).into_bytes()),
                false => text.extend(bytes),
            }
        }
        text.extend(chunk.invalid());
    }
    text
}

/// The verdict in words.
fn described(verdict: &Verdict) -> String {
    match verdict {
        Verdict::Accepted { .. } => "accepted".to_string(),
        Verdict::Breach { breach, .. } => {
            let rule = breach.rule.number();
            let text = shown(&breach.message);
            format!("breach {rule} at {}: {text}", breach.place)
        }
        Verdict::Refused { file, refusal } => {
            format!("refused {}: {}", refusal.number(), reason(*refusal, file))
        }
        Verdict::Unreadable(reason) => format!("unreadable: {reason}"),
    }
}

/// Two indented lines: the knot and stitch, and the path.
fn explained(verdict: &Verdict, location: &Location) -> String {
    let place = match verdict {
        Verdict::Refused { .. } => format!("reading stopped at {}, ", location.place),
        _ => String::new(),
    };
    let mut text = format!("  {place}in {}\n", container(location));
    if !location.path.is_empty() {
        let path: Vec<String> = location.path.iter().map(step).collect();
        text.push_str(&format!("  path: {}\n", path.join(" > ")));
    }
    text
}

/// The knot and stitch, or the section.
fn container(location: &Location) -> String {
    match (&location.flow, &location.stitch) {
        (None, _) => format!("the {}", location.section),
        (Some(flow), None) => called(flow),
        (Some(flow), Some(stitch)) => format!("{}, {}", called(flow), called(stitch)),
    }
}

/// A flow or stitch by its name; one that was not read so far has none.
fn called(piece: &Piece) -> String {
    match piece.name {
        Some(_) => piece.to_string(),
        None => format!("a {piece}"),
    }
}

/// One piece of the path; branches and sections have no place of interest.
fn step(piece: &Piece) -> String {
    match piece.sort {
        Sort::Branch | Sort::Section => piece.to_string(),
        _ => format!("{piece} at {}", piece.start),
    }
}
