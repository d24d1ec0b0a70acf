//! The decoder: the bytes of a flat story file to its story, or where reading stops.

use crate::layout::{DEEPEST, LONGEST_FILE, MARK, TRAILER};
use crate::name::Name;
use crate::outline::{Piece, Sort};
use crate::rule::Refusal;
use crate::story::{
    AssignMode, Branch, Call, Choice, Condition, Expression, Flow, Node, Stitch, Story,
};
use std::fmt;

/// Where and why a file cannot be read.
#[derive(Debug, Clone, Copy, PartialEq, Eq)]
pub struct Stop {
    /// The refusal, which is the one that a check gives.
    pub refusal: Refusal,
    /// The place of the field that is at fault.
    pub place: usize,
}

impl fmt::Display for Stop {
    /// `refused N at P: REASON`.
    fn fmt(&self, f: &mut fmt::Formatter<'_>) -> fmt::Result {
        let Stop { refusal, place } = self;
        write!(f, "refused {} at {place}: {refusal}", refusal.number())
    }
}

impl std::error::Error for Stop {}

/// The story of a readable file; encoding it gives the same bytes.
///
/// ```
/// use qaabireed::{Node, Story, decode};
///
/// let story = Story::new().global("gold").node(Node::divert("gold"));
/// assert_eq!(decode(&story.encode()?), Ok(story));
/// # Ok::<(), qaabireed::EncodeError>(())
/// ```
pub fn decode(file: &[u8]) -> Result<Story, Stop> {
    read(file).1
}

/// The pieces met, and the story or where reading stopped.
pub(crate) fn read(file: &[u8]) -> (Vec<Piece>, Read<Story>) {
    let mut reader = Reader {
        file,
        pieces: Vec::new(),
        level: 0,
    };
    let story = reader.story();
    (reader.pieces, story)
}

/// What was read, or where reading stopped.
type Read<T> = Result<T, Stop>;

/// Stops reading at a place.
fn stop<T>(refusal: Refusal, place: usize) -> Read<T> {
    Err(Stop { refusal, place })
}

/// The titles of nodes, in the order of their kinds.
const NODES: [&str; 17] = [
    "Plain",
    "Newline",
    "OutputExpression",
    "Divert",
    "TunnelDivert",
    "ThreadDivert",
    "TunnelReturn",
    "TunnelOnwardsWithTarget",
    "Conditional",
    "SwitchConditional",
    "Sequence",
    "ReturnBool",
    "ReturnExpr",
    "Assignment",
    "Choice",
    "GatherLabel",
    "VoidCall",
];

/// The titles of expressions, in the order of their kinds.
const EXPRESSIONS: [&str; 7] = [
    "Constant",
    "Variable",
    "DivertTarget",
    "Negate",
    "Not",
    "FunctionCall",
    "Binary",
];

/// The titles of conditions, in the order of their kinds.
const CONDITIONS: [&str; 3] = [
    "Bool condition",
    "FunctionCall condition",
    "Expression condition",
];

/// The titles of assignments, in the order of their modes.
const ASSIGNMENTS: [&str; 4] = [
    "Assignment (Set)",
    "Assignment (TempSet)",
    "Assignment (AddAssign)",
    "Assignment (SubtractAssign)",
];

/// What is left to read of a container.
#[derive(Clone, Copy)]
struct Span {
    at: usize,
    end: usize,
}

impl Span {
    /// Takes the next bytes off.
    fn take(&mut self, count: usize) -> Read<Span> {
        if count > self.end - self.at {
            return stop(Refusal::Bounds, self.at);
        }
        let at = self.at;
        self.at += count;
        Ok(Span { at, end: self.at })
    }

    /// Nothing may be left.
    fn close(&self) -> Read<()> {
        match self.at < self.end {
            true => stop(Refusal::Bounds, self.at),
            false => Ok(()),
        }
    }
}

/// Reads a file and notes the pieces that it meets.
struct Reader<'f> {
    file: &'f [u8],
    pieces: Vec<Piece>,
    level: usize,
}

impl Reader<'_> {
    /// The whole file.
    fn story(&mut self) -> Read<Story> {
        let [globals, externals, root, flows] = self.sections()?;
        Ok(Story {
            globals: self.section("globals", globals, |r, span| r.listed("global", span))?,
            externals: self
                .section("externals", externals, |r, span| r.listed("external", span))?,
            root: self.section("root", root, |r, span| r.node(span, 1))?,
            flows: self.section("flows", flows, Self::flow)?,
        })
    }

    /// The four sections of a file whose length, mark and starts are right.
    fn sections(&self) -> Read<[Span; 4]> {
        if !(TRAILER..=LONGEST_FILE).contains(&self.file.len()) {
            return stop(Refusal::Length, self.file.len());
        }
        let end = self.file.len() - TRAILER;
        if self.file[end + 16..] != MARK {
            return stop(Refusal::Mark, end + 16);
        }
        let start = |number: usize| self.number(end + 4 * number);
        let bounds = [start(0), start(1), start(2), start(3), end];
        let falls = |number: &usize| bounds[*number] > bounds[number + 1];
        if bounds[0] != 0 {
            return stop(Refusal::Starts, end);
        }
        if let Some(number) = (0..4).find(falls) {
            return stop(Refusal::Starts, end + 4 * number);
        }
        let section = |number: usize| Span {
            at: bounds[number],
            end: bounds[number + 1],
        };
        Ok([section(0), section(1), section(2), section(3)])
    }

    /// The 32-bit number at a place.
    fn number(&self, place: usize) -> usize {
        let bytes = [0, 1, 2, 3].map(|one| self.file[place + one]);
        u32::from_le_bytes(bytes) as usize
    }

    /// Pieces to a section's end; an empty section is not noted.
    fn section<T>(
        &mut self,
        title: &'static str,
        span: Span,
        piece: impl FnMut(&mut Self, &mut Span) -> Read<T>,
    ) -> Read<Vec<T>> {
        if span.at == span.end {
            return Ok(Vec::new());
        }
        self.note(Sort::Section, title, span.at, span.end);
        self.inside(|r| r.all(span, piece))
    }

    /// Notes a piece and gives its number.
    fn note(&mut self, sort: Sort, title: &'static str, start: usize, end: usize) -> usize {
        self.pieces.push(Piece {
            start,
            end,
            level: self.level,
            sort,
            title,
            name: None,
        });
        self.pieces.len() - 1
    }

    /// Reads what lies inside the piece noted last.
    fn inside<T>(&mut self, read: impl FnOnce(&mut Self) -> Read<T>) -> Read<T> {
        self.level += 1;
        let result = read(self);
        self.level -= 1;
        result
    }

    /// Pieces to the span's end.
    fn all<T>(
        &mut self,
        mut span: Span,
        mut piece: impl FnMut(&mut Self, &mut Span) -> Read<T>,
    ) -> Read<Vec<T>> {
        let mut pieces = Vec::new();
        while span.at < span.end {
            pieces.push(piece(self, &mut span)?);
        }
        Ok(pieces)
    }

    /// One byte.
    fn byte(&mut self, span: &mut Span) -> Read<u8> {
        Ok(self.file[span.take(1)?.at])
    }

    /// A byte that is 0 or 1.
    fn flag(&mut self, span: &mut Span) -> Read<bool> {
        let place = span.at;
        match self.byte(span)? {
            0 => Ok(false),
            1 => Ok(true),
            _ => stop(Refusal::Meaning, place),
        }
    }

    /// A 32-bit length and the part that it counts.
    fn sized(&mut self, span: &mut Span) -> Read<Span> {
        let place = span.take(4)?.at;
        let length = self.number(place);
        span.take(length).or(stop(Refusal::Bounds, place))
    }

    /// A count byte and so many bytes.
    fn name(&mut self, span: &mut Span) -> Read<Name> {
        let place = span.at;
        let count = self.byte(span)?;
        let part = span.take(count.into()).or(stop(Refusal::Bounds, place))?;
        Ok(Name::from(&self.file[part.at..part.end]))
    }

    /// A name that is the name of the piece with a number.
    fn name_of(&mut self, piece: usize, span: &mut Span) -> Read<Name> {
        let name = self.name(span)?;
        self.pieces[piece].name = Some(name.clone());
        Ok(name)
    }

    /// A name that is a piece of its own.
    fn listed(&mut self, title: &'static str, span: &mut Span) -> Read<Name> {
        let start = span.at;
        let name = self.name(span)?;
        let piece = self.note(Sort::Name, title, start, span.at);
        self.pieces[piece].name = Some(name.clone());
        Ok(name)
    }

    /// A count byte and so many names.
    fn parameters(&mut self, title: &'static str, span: &mut Span) -> Read<Vec<Name>> {
        let count = self.byte(span)?;
        (0..count).map(|_| self.listed(title, span)).collect()
    }

    /// A flow: function flag, fields, stitches to the end.
    fn flow(&mut self, span: &mut Span) -> Read<Flow> {
        let start = span.at;
        let mut part = self.sized(span)?;
        let piece = self.note(Sort::Flow, "flow", start, part.end);
        let is_function = self.flag(&mut part)?;
        self.pieces[piece].title = if is_function { "function" } else { "knot" };
        self.inside(|r| {
            Ok(Flow {
                is_function,
                name: r.name_of(piece, &mut part)?,
                parameters: r.parameters("parameter", &mut part)?,
                divert_parameters: r.parameters("divert parameter", &mut part)?,
                nodes: r.list(&mut part, 1)?,
                stitches: r.all(part, Self::stitch)?,
            })
        })
    }

    /// A stitch: fields and nothing after them.
    fn stitch(&mut self, span: &mut Span) -> Read<Stitch> {
        let start = span.at;
        let mut part = self.sized(span)?;
        let piece = self.note(Sort::Stitch, "stitch", start, part.end);
        let stitch = self.inside(|r| {
            Ok(Stitch {
                name: r.name_of(piece, &mut part)?,
                parameters: r.parameters("parameter", &mut part)?,
                divert_parameters: r.parameters("divert parameter", &mut part)?,
                nodes: r.list(&mut part, 1)?,
            })
        })?;
        part.close()?;
        Ok(stitch)
    }

    /// A node list.
    fn list(&mut self, span: &mut Span, depth: usize) -> Read<Vec<Node>> {
        let part = self.sized(span)?;
        self.all(part, |r, span| r.node(span, depth))
    }

    /// A node list that is a branch.
    fn branch(&mut self, title: &'static str, span: &mut Span, depth: usize) -> Read<Vec<Node>> {
        let start = span.at;
        let part = self.sized(span)?;
        self.note(Sort::Branch, title, start, part.end);
        self.inside(|r| r.all(part, |r, span| r.node(span, depth)))
    }

    /// A record: its header is judged, its payload read, and nothing may be left of it.
    fn record<T>(
        &mut self,
        span: &mut Span,
        sort: Sort,
        titles: &[&'static str],
        depth: usize,
        payload: impl FnOnce(&mut Self, Header, &mut Span) -> Read<T>,
    ) -> Read<T> {
        let start = span.at;
        let kind = self.byte(span)?;
        let mut part = self.sized(span)?;
        let Some(title) = titles.get(usize::from(kind)) else {
            return stop(Refusal::Meaning, start);
        };
        if depth > DEEPEST {
            return stop(Refusal::Depth, start);
        }
        let piece = self.note(sort, title, start, part.end);
        let header = Header { kind, piece };
        let record = self.inside(|r| payload(r, header, &mut part))?;
        part.close()?;
        Ok(record)
    }

    /// One node.
    fn node(&mut self, span: &mut Span, depth: usize) -> Read<Node> {
        self.record(span, Sort::Node, &NODES, depth, |r, header, part| {
            r.node_payload(header, part, depth + 1)
        })
    }

    /// What is in a node; records in it have the given depth.
    fn node_payload(&mut self, header: Header, part: &mut Span, depth: usize) -> Read<Node> {
        Ok(match header.kind {
            0 => Node::Plain,
            1 => Node::Newline,
            2 => Node::OutputExpression(self.expression(part, depth)?),
            3 => Node::Divert(self.call(header.piece, part, depth)?),
            4 => Node::TunnelDivert(self.call(header.piece, part, depth)?),
            5 => Node::ThreadDivert(self.call(header.piece, part, depth)?),
            6 => Node::TunnelReturn,
            7 => Node::TunnelOnwardsWithTarget(self.call(header.piece, part, depth)?),
            8 => self.conditional(part, depth)?,
            9 => self.switch(part, depth)?,
            10 => {
                let rest = part.take(part.end - part.at)?;
                Node::Sequence(self.all(rest, |r, span| r.branch("branch", span, depth))?)
            }
            11 => Node::ReturnBool,
            12 => Node::ReturnExpr(self.expression(part, depth)?),
            13 => self.assignment(header.piece, part, depth)?,
            14 => self.choice(header.piece, part, depth)?,
            15 => Node::GatherLabel(self.name_of(header.piece, part)?),
            _ => Node::VoidCall(self.call(header.piece, part, depth)?),
        })
    }

    /// A name and expressions to the end.
    fn call(&mut self, piece: usize, part: &mut Span, depth: usize) -> Read<Call> {
        let name = self.name_of(piece, part)?;
        let rest = part.take(part.end - part.at)?;
        let arguments = self.all(rest, |r, span| r.expression(span, depth))?;
        Ok(Call { name, arguments })
    }

    /// Condition, list, flag, list if 1.
    fn conditional(&mut self, part: &mut Span, depth: usize) -> Read<Node> {
        let condition = self.condition(part, depth)?;
        let when_true = self.branch("when true", part, depth)?;
        let when_false = match self.flag(part)? {
            true => Some(self.branch("when false", part, depth)?),
            false => None,
        };
        Ok(Node::Conditional {
            condition,
            when_true,
            when_false,
        })
    }

    /// Expression, then branches to the end.
    fn switch(&mut self, part: &mut Span, depth: usize) -> Read<Node> {
        let value = self.expression(part, depth)?;
        let rest = part.take(part.end - part.at)?;
        let branches = self.all(rest, |r, span| {
            let case = match r.flag(span)? {
                true => Some(r.expression(span, depth)?),
                false => None,
            };
            let title = if case.is_some() { "case" } else { "else" };
            let nodes = r.branch(title, span, depth)?;
            Ok(Branch { case, nodes })
        })?;
        Ok(Node::SwitchConditional { value, branches })
    }

    /// Mode, name, expression.
    fn assignment(&mut self, piece: usize, part: &mut Span, depth: usize) -> Read<Node> {
        let place = part.at;
        let number = self.byte(part)?;
        let mode = match number {
            0 => AssignMode::Set,
            1 => AssignMode::TempSet,
            2 => AssignMode::AddAssign,
            3 => AssignMode::SubtractAssign,
            _ => return stop(Refusal::Meaning, place),
        };
        self.pieces[piece].title = ASSIGNMENTS[usize::from(number)];
        Ok(Node::Assignment {
            mode,
            name: self.name_of(piece, part)?,
            value: self.expression(part, depth)?,
        })
    }

    /// Flag, label if 1, condition list, node list.
    fn choice(&mut self, piece: usize, part: &mut Span, depth: usize) -> Read<Node> {
        let label = match self.flag(part)? {
            true => Some(self.name_of(piece, part)?),
            false => None,
        };
        let list = self.sized(part)?;
        Ok(Node::Choice(Choice {
            label,
            conditions: self.all(list, |r, span| r.condition(span, depth))?,
            body: self.list(part, depth)?,
        }))
    }

    /// One expression.
    fn expression(&mut self, span: &mut Span, depth: usize) -> Read<Expression> {
        self.record(
            span,
            Sort::Expression,
            &EXPRESSIONS,
            depth,
            |r, header, part| r.expression_payload(header, part, depth + 1),
        )
    }

    /// What is in an expression; records in it have the given depth.
    fn expression_payload(
        &mut self,
        header: Header,
        part: &mut Span,
        depth: usize,
    ) -> Read<Expression> {
        Ok(match header.kind {
            0 => Expression::Constant,
            1 => Expression::Variable(self.name_of(header.piece, part)?),
            2 => Expression::DivertTarget(self.name_of(header.piece, part)?),
            3 => Expression::negate(self.expression(part, depth)?),
            4 => Expression::negation(self.expression(part, depth)?),
            5 => Expression::FunctionCall(self.call(header.piece, part, depth)?),
            _ => Expression::binary(self.expression(part, depth)?, self.expression(part, depth)?),
        })
    }

    /// One condition.
    fn condition(&mut self, span: &mut Span, depth: usize) -> Read<Condition> {
        self.record(
            span,
            Sort::Condition,
            &CONDITIONS,
            depth,
            |r, header, part| {
                Ok(match header.kind {
                    0 => Condition::Bool,
                    1 => Condition::FunctionCall(r.name_of(header.piece, part)?),
                    _ => Condition::Expression(r.expression(part, depth + 1)?),
                })
            },
        )
    }
}

/// A record's kind and the number of its piece.
struct Header {
    kind: u8,
    piece: usize,
}
