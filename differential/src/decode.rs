//! The decoder: a readable flat file to the story that the original validates.

use crate::ast::{
    AssignMode, BinaryOperator, Choice, Condition, Divert, Expression, Flow, GlobalVariable, Node,
    ParsedStory, Sequence, SequenceMode,
};
use crate::layout::{DEEPEST, LONGEST_FILE, MARK, TRAILER};

/// What a byte or number of the file is, for those who damage it on purpose.
#[derive(Debug, Clone, Copy, PartialEq, Eq, PartialOrd, Ord)]
pub enum Field {
    NodeKind,
    ExpressionKind,
    ConditionKind,
    Flag,
    Mode,
    Count,
    Length,
}

/// A readable file's story, the places of its fields, and whether all names are UTF-8.
#[derive(Debug)]
pub struct Decoded {
    pub story: ParsedStory,
    pub fields: Vec<(usize, Field)>,
    pub names_are_utf8: bool,
}

type Decoding<T> = Result<T, u8>;

/// The story of a readable file with what was noted of it, or the number of the refusal.
pub fn decode(file: &[u8]) -> Decoding<Decoded> {
    let mut places = Places {
        fields: Vec::new(),
        names_are_utf8: true,
    };
    let story = read(file, &mut places)?;
    Ok(Decoded {
        story,
        fields: places.fields,
        names_are_utf8: places.names_are_utf8,
    })
}

/// The story of a readable file, or the number of the refusal, and nothing else.
pub fn decode_only(file: &[u8]) -> Decoding<ParsedStory> {
    read(file, &mut Nothing)
}

/// What is noted of a file while it is decoded.
trait Notes {
    /// What a byte or number at a place is.
    fn field(&mut self, place: usize, field: Field);

    /// A name's bytes and its text.
    fn name(&mut self, bytes: &[u8], text: &str);
}

/// Notes nothing, so that decoding is all that is left.
struct Nothing;

impl Notes for Nothing {
    /// A field.
    fn field(&mut self, _: usize, _: Field) {}

    /// A name.
    fn name(&mut self, _: &[u8], _: &str) {}
}

/// Notes the places of all fields, and whether all names are UTF-8.
struct Places {
    fields: Vec<(usize, Field)>,
    names_are_utf8: bool,
}

impl Notes for Places {
    /// A field.
    fn field(&mut self, place: usize, field: Field) {
        self.fields.push((place, field));
    }

    /// A name.
    fn name(&mut self, bytes: &[u8], text: &str) {
        self.names_are_utf8 &= text.as_bytes() == bytes;
    }
}

/// The story of a readable file, or the number of the refusal; notes are taken on the way.
fn read(file: &[u8], notes: &mut impl Notes) -> Decoding<ParsedStory> {
    let [globals, externals, root, flows] = sections(file)?;
    let mut decoder = Decoder { file, notes };
    let globals = decoder.all(globals, Decoder::name)?;
    let globals = globals.into_iter().map(|name| GlobalVariable {
        name,
        initial_value: Expression::Int(0),
    });
    let mut story = ParsedStory::new(globals.collect(), Vec::new(), Vec::new());
    story.external_functions = decoder.all(externals, Decoder::name)?;
    story.root = decoder.all(root, |d, span| d.node(span, 1))?;
    story.flows = decoder.all(flows, Decoder::flow)?;
    Ok(story)
}

/// The four sections of a file whose length, mark and starts are right.
fn sections(file: &[u8]) -> Decoding<[Span; 4]> {
    if !(TRAILER..=LONGEST_FILE).contains(&file.len()) {
        return Err(1);
    }
    let end = file.len() - TRAILER;
    if file[end + 16..] != MARK {
        return Err(2);
    }
    let start = |number: usize| little_endian(&file[end + 4 * number..]);
    let bounds = [start(0), start(1), start(2), start(3), end];
    if bounds[0] != 0 || !bounds.is_sorted() {
        return Err(3);
    }
    let section = |number: usize| Span {
        at: bounds[number],
        end: bounds[number + 1],
    };
    Ok([section(0), section(1), section(2), section(3)])
}

/// The number in the first four bytes.
fn little_endian(bytes: &[u8]) -> usize {
    u32::from_le_bytes([bytes[0], bytes[1], bytes[2], bytes[3]]) as usize
}

/// What is left to read of a container.
#[derive(Clone, Copy)]
struct Span {
    at: usize,
    end: usize,
}

impl Span {
    /// Takes the next bytes off.
    fn take(&mut self, count: usize) -> Decoding<Span> {
        if count > self.end - self.at {
            return Err(4);
        }
        let at = self.at;
        self.at += count;
        Ok(Span { at, end: self.at })
    }

    /// Nothing may be left.
    fn close(&self) -> Decoding<()> {
        if self.at < self.end { Err(4) } else { Ok(()) }
    }
}

/// Reads the pieces of a file and has them noted.
struct Decoder<'a, N> {
    file: &'a [u8],
    notes: &'a mut N,
}

impl<N: Notes> Decoder<'_, N> {
    /// Pieces to the span's end.
    fn all<T>(
        &mut self,
        mut span: Span,
        mut piece: impl FnMut(&mut Self, &mut Span) -> Decoding<T>,
    ) -> Decoding<Vec<T>> {
        let mut pieces = Vec::new();
        while span.at < span.end {
            pieces.push(piece(self, &mut span)?);
        }
        Ok(pieces)
    }

    /// One byte, whose meaning is noted.
    fn byte(&mut self, span: &mut Span, field: Field) -> Decoding<u8> {
        let place = span.take(1)?.at;
        self.notes.field(place, field);
        Ok(self.file[place])
    }

    /// A byte that is 0 or 1.
    fn flag(&mut self, span: &mut Span) -> Decoding<bool> {
        match self.byte(span, Field::Flag)? {
            0 => Ok(false),
            1 => Ok(true),
            _ => Err(5),
        }
    }

    /// A 32-bit length and the part that it counts.
    fn sized(&mut self, span: &mut Span) -> Decoding<Span> {
        let place = span.take(4)?.at;
        self.notes.field(place, Field::Length);
        span.take(little_endian(&self.file[place..]))
    }

    /// A count byte and so many bytes.
    fn name(&mut self, span: &mut Span) -> Decoding<String> {
        let count = self.byte(span, Field::Count)?;
        let part = span.take(count.into())?;
        let bytes = &self.file[part.at..part.end];
        let text = String::from_utf8_lossy(bytes);
        self.notes.name(bytes, &text);
        Ok(text.into_owned())
    }

    /// A count byte and so many names.
    fn names(&mut self, span: &mut Span) -> Decoding<Vec<String>> {
        let count = self.byte(span, Field::Count)?;
        (0..count).map(|_| self.name(span)).collect()
    }

    /// A flow: function flag, fields, stitches to the end.
    fn flow(&mut self, span: &mut Span) -> Decoding<Flow> {
        let mut part = self.sized(span)?;
        let is_function = self.flag(&mut part)?;
        let mut flow = self.flow_fields(&mut part)?;
        flow.is_function = is_function;
        flow.children = self.all(part, Self::stitch)?;
        Ok(flow)
    }

    /// A stitch: fields and nothing after them.
    fn stitch(&mut self, span: &mut Span) -> Decoding<Flow> {
        let mut part = self.sized(span)?;
        let stitch = self.flow_fields(&mut part)?;
        part.close()?;
        Ok(stitch)
    }

    /// Name, parameters, divert parameters and node list.
    fn flow_fields(&mut self, span: &mut Span) -> Decoding<Flow> {
        Ok(Flow {
            name: self.name(span)?,
            is_function: false,
            parameters: self.names(span)?,
            ref_parameters: Vec::new(),
            divert_parameters: self.names(span)?,
            nodes: self.list(span, 1)?,
            children: Vec::new(),
        })
    }

    /// A node list.
    fn list(&mut self, span: &mut Span, depth: usize) -> Decoding<Vec<Node>> {
        let part = self.sized(span)?;
        self.all(part, |d, span| d.node(span, depth))
    }

    /// A record's header: its kind and the part that holds its payload.
    fn header(
        &mut self,
        span: &mut Span,
        field: Field,
        kinds: u8,
        depth: usize,
    ) -> Decoding<(u8, Span)> {
        let kind = self.byte(span, field)?;
        let payload = self.sized(span)?;
        if kind >= kinds {
            return Err(5);
        }
        if depth > DEEPEST {
            return Err(6);
        }
        Ok((kind, payload))
    }

    /// One node.
    fn node(&mut self, span: &mut Span, depth: usize) -> Decoding<Node> {
        let (kind, mut part) = self.header(span, Field::NodeKind, 17, depth)?;
        let node = match kind {
            8 => self.conditional(&mut part, depth + 1)?,
            9 => self.switch(&mut part, depth + 1)?,
            10 => self.sequence(&mut part, depth + 1)?,
            13 => self.assignment(&mut part, depth + 1)?,
            14 => self.choice(&mut part, depth + 1)?,
            3..=5 | 7 | 16 => self.named_node(kind, &mut part, depth + 1)?,
            _ => self.small_node(kind, &mut part, depth + 1)?,
        };
        part.close()?;
        Ok(node)
    }

    /// A node that is empty, has one expression or is a label.
    fn small_node(&mut self, kind: u8, part: &mut Span, depth: usize) -> Decoding<Node> {
        Ok(match kind {
            0 => Node::Glue,
            1 => Node::Newline,
            2 => Node::OutputExpression(self.expression(part, depth)?),
            6 => Node::TunnelReturn,
            11 => Node::ReturnBool(true),
            12 => Node::ReturnExpr(self.expression(part, depth)?),
            _ => Node::GatherLabel {
                label: self.name(part)?,
                level: 1,
                indent: 0,
            },
        })
    }

    /// A node of a name and arguments.
    fn named_node(&mut self, kind: u8, part: &mut Span, depth: usize) -> Decoding<Node> {
        let (target, arguments) = self.call(part, depth)?;
        Ok(match kind {
            3 => Node::Divert(Divert { target, arguments }),
            4 => Node::TunnelDivert {
                target,
                is_variable: false,
                args: arguments,
            },
            5 => Node::ThreadDivert(Divert { target, arguments }),
            7 => Node::TunnelOnwardsWithTarget {
                target,
                args: arguments,
            },
            _ => Node::VoidCall {
                name: target,
                args: arguments,
            },
        })
    }

    /// A name and expressions to the end.
    fn call(&mut self, part: &mut Span, depth: usize) -> Decoding<(String, Vec<Expression>)> {
        let name = self.name(part)?;
        let rest = part.take(part.end - part.at)?;
        let arguments = self.all(rest, |d, span| d.expression(span, depth))?;
        Ok((name, arguments))
    }

    /// Condition, list, flag, list if 1.
    fn conditional(&mut self, part: &mut Span, depth: usize) -> Decoding<Node> {
        let condition = self.condition(part, depth)?;
        let when_true = self.list(part, depth)?;
        let when_false = match self.flag(part)? {
            true => Some(self.list(part, depth)?),
            false => None,
        };
        Ok(Node::Conditional {
            condition,
            when_true,
            when_false,
        })
    }

    /// Expression, then branches to the end.
    fn switch(&mut self, part: &mut Span, depth: usize) -> Decoding<Node> {
        let value = self.expression(part, depth)?;
        let rest = part.take(part.end - part.at)?;
        let branches = self.all(rest, |d, span| {
            let case = match d.flag(span)? {
                true => Some(d.expression(span, depth)?),
                false => None,
            };
            Ok((case, d.list(span, depth)?))
        })?;
        Ok(Node::SwitchConditional { value, branches })
    }

    /// Lists to the end.
    fn sequence(&mut self, part: &mut Span, depth: usize) -> Decoding<Node> {
        let rest = part.take(part.end - part.at)?;
        let branches = self.all(rest, |d, span| d.list(span, depth))?;
        let mode = SequenceMode::Stopping;
        Ok(Node::Sequence(Sequence { mode, branches }))
    }

    /// Mode, name, expression.
    fn assignment(&mut self, part: &mut Span, depth: usize) -> Decoding<Node> {
        let mode = match self.byte(part, Field::Mode)? {
            0 => AssignMode::Set,
            1 => AssignMode::TempSet,
            2 => AssignMode::AddAssign,
            3 => AssignMode::SubtractAssign,
            _ => return Err(5),
        };
        Ok(Node::Assignment {
            variable_name: self.name(part)?,
            expression: self.expression(part, depth)?,
            mode,
        })
    }

    /// Flag, label if 1, condition list, node list.
    fn choice(&mut self, part: &mut Span, depth: usize) -> Decoding<Node> {
        let label = match self.flag(part)? {
            true => Some(self.name(part)?),
            false => None,
        };
        let list = self.sized(part)?;
        let conditions = self.all(list, |d, span| d.condition(span, depth))?;
        let body = self.list(part, depth)?;
        Ok(Node::Choice(bare_choice(label, conditions, body)))
    }

    /// One expression.
    fn expression(&mut self, span: &mut Span, depth: usize) -> Decoding<Expression> {
        let (kind, mut part) = self.header(span, Field::ExpressionKind, 7, depth)?;
        let deeper = depth + 1;
        let value = match kind {
            0 => Expression::Int(0),
            1 => Expression::Variable(self.name(&mut part)?),
            2 => Expression::DivertTarget(self.name(&mut part)?),
            3 => Expression::Negate(Box::new(self.expression(&mut part, deeper)?)),
            4 => Expression::Not(Box::new(self.expression(&mut part, deeper)?)),
            5 => {
                let (name, args) = self.call(&mut part, deeper)?;
                Expression::FunctionCall { name, args }
            }
            _ => Expression::Binary {
                left: Box::new(self.expression(&mut part, deeper)?),
                operator: BinaryOperator::Add,
                right: Box::new(self.expression(&mut part, deeper)?),
            },
        };
        part.close()?;
        Ok(value)
    }

    /// One condition.
    fn condition(&mut self, span: &mut Span, depth: usize) -> Decoding<Condition> {
        let (kind, mut part) = self.header(span, Field::ConditionKind, 3, depth)?;
        let condition = match kind {
            0 => Condition::Bool(true),
            1 => Condition::FunctionCall(self.name(&mut part)?),
            _ => Condition::Expression(self.expression(&mut part, depth + 1)?),
        };
        part.close()?;
        Ok(condition)
    }
}

/// A choice of which only what the file stores is set.
pub fn bare_choice(label: Option<String>, conditions: Vec<Condition>, body: Vec<Node>) -> Choice {
    Choice {
        display_text: String::new(),
        selected_text: None,
        body,
        start_text: String::new(),
        choice_only_text: String::new(),
        conditions,
        label,
        once_only: true,
        is_invisible_default: false,
        has_start_content: false,
        has_choice_only_content: false,
        start_tags: Vec::new(),
        choice_only_tags: Vec::new(),
        selected_tags: Vec::new(),
        nesting_level: 1,
        body_divert_is_inline: false,
    }
}
