//! The outline of a file: every piece with its place, as text or around a place.

use crate::decode::{Stop, read};
use crate::name::Name;
use std::fmt;

/// The pieces of a file, outer before inner, front to back.
#[derive(Debug, Clone, Default, PartialEq, Eq)]
pub struct Outline {
    /// The pieces; of a file that is not readable, those met so far.
    pub pieces: Vec<Piece>,
    /// Where and why reading stopped, if it did.
    pub stop: Option<Stop>,
}

/// A section, flow, stitch, record, list or name of a file.
#[derive(Debug, Clone, PartialEq, Eq)]
pub struct Piece {
    /// The place of its first byte.
    pub start: usize,
    /// The place after its last byte.
    pub end: usize,
    /// How many pieces it lies in.
    pub level: usize,
    /// What it is.
    pub sort: Sort,
    /// What it is called in `docs/FORMAT.md`.
    pub title: &'static str,
    /// Its name, target or label.
    pub name: Option<Name>,
}

/// What a piece is.
#[derive(Debug, Clone, Copy, PartialEq, Eq, Hash)]
pub enum Sort {
    /// One of the four sections.
    Section,
    /// A global, external or parameter.
    Name,
    /// A knot or function.
    Flow,
    /// A stitch.
    Stitch,
    /// A node.
    Node,
    /// An expression.
    Expression,
    /// A condition.
    Condition,
    /// A branch of a conditional, switch or sequence.
    Branch,
}

/// The outline of any bytes.
///
/// ```
/// use qaabireed::{Flow, Node, Story, outline};
///
/// let file = Story::new().flow(Flow::knot("hall").node(Node::divert("END"))).encode()?;
/// assert_eq!(
///     outline(&file).to_string(),
///     "     0  flows\n     0    knot 'hall'\n    16      Divert 'END'\n"
/// );
/// # Ok::<(), qaabireed::EncodeError>(())
/// ```
pub fn outline(file: &[u8]) -> Outline {
    let (pieces, story) = read(file);
    let stop = story.err();
    Outline { pieces, stop }
}

impl Outline {
    /// The pieces that a place lies in, outermost first.
    pub fn around(&self, place: usize) -> Vec<&Piece> {
        let holds = |piece: &&Piece| (piece.start..piece.end).contains(&place);
        self.pieces.iter().filter(holds).collect()
    }
}

impl fmt::Display for Outline {
    /// A line for each piece: its place, then its title and name, indented.
    fn fmt(&self, f: &mut fmt::Formatter<'_>) -> fmt::Result {
        for piece in &self.pieces {
            let indent = 2 * piece.level;
            writeln!(f, "{:6}  {:indent$}{piece}", piece.start, "")?;
        }
        Ok(())
    }
}

impl fmt::Display for Piece {
    /// The title and, in quotes, the name.
    fn fmt(&self, f: &mut fmt::Formatter<'_>) -> fmt::Result {
        f.write_str(self.title)?;
        match &self.name {
            Some(name) => write!(f, " '{}'", name.shown()),
            None => Ok(()),
        }
    }
}
