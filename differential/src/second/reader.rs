//! Reads a file front to back into a tree with places, or gives the refusal first met; and lists the records met on the way.

use std::cell::RefCell;

/// A piece, or the number of the refusal.
pub type Reading<T> = Result<T, u8>;

/// A name: the place of its count byte and its bytes.
#[derive(Debug, Clone, Copy)]
pub struct Name<'f> {
    pub place: u32,
    pub bytes: &'f [u8],
}

#[derive(Debug)]
pub struct Story<'f> {
    pub globals: Vec<Name<'f>>,
    pub externals: Vec<Name<'f>>,
    pub root: Vec<Node<'f>>,
    pub flows: Vec<Flow<'f>>,
}

#[derive(Debug)]
pub struct Flow<'f> {
    /// The first byte of the flow's length.
    pub place: u32,
    pub is_function: bool,
    pub own: Body<'f>,
    pub stitches: Vec<Body<'f>>,
}

/// What a flow and a stitch have in common.
#[derive(Debug)]
pub struct Body<'f> {
    pub name: Name<'f>,
    pub parameters: Vec<Name<'f>>,
    pub marks: Vec<Name<'f>>,
    pub nodes: Vec<Node<'f>>,
}

#[derive(Debug)]
pub struct Node<'f> {
    pub place: u32,
    pub kind: u8,
    pub what: What<'f>,
}

/// The payload of a node.
#[derive(Debug)]
pub enum What<'f> {
    /// Kinds 0, 1, 6 and 11.
    Empty,
    /// Kinds 2 and 12.
    Value(Expression<'f>),
    /// Kinds 3, 4, 5, 7 and 16.
    Named(Name<'f>, Vec<Expression<'f>>),
    Conditional(Condition<'f>, Vec<Vec<Node<'f>>>),
    Switch(Expression<'f>, Vec<Branch<'f>>),
    Sequence(Vec<Vec<Node<'f>>>),
    Assignment(u8, Name<'f>, Expression<'f>),
    Choice(Option<Name<'f>>, Vec<Condition<'f>>, Vec<Node<'f>>),
    Gather(Name<'f>),
}

/// A branch of a switch.
#[derive(Debug)]
pub struct Branch<'f> {
    pub case: Option<Expression<'f>>,
    pub nodes: Vec<Node<'f>>,
}

#[derive(Debug)]
pub struct Expression<'f> {
    pub place: u32,
    pub kind: u8,
    pub name: Option<Name<'f>>,
    pub inner: Vec<Expression<'f>>,
}

#[derive(Debug)]
pub struct Condition<'f> {
    pub place: u32,
    pub name: Option<Name<'f>>,
    pub value: Option<Expression<'f>>,
}

/// What a record is by where it stands.
#[derive(Debug, Clone, Copy, PartialEq, Eq)]
pub enum Class {
    Node,
    Expression,
    Condition,
}

/// A record met: its header was read and not refused, whatever is then found in its payload.
#[derive(Debug)]
pub struct Record {
    pub place: u32,
    pub class: Class,
    pub kind: u8,
    pub depth: u32,
    /// The payload's first byte, if it has one.
    pub first: Option<u8>,
}

/// The story, or the refusal.
pub fn read(file: &[u8]) -> Reading<Story<'_>> {
    read_met(file).0
}

/// The story, or the refusal; and the records met up to there, front to back.
pub fn read_met(file: &[u8]) -> (Reading<Story<'_>>, Vec<Record>) {
    let met = RefCell::new(Vec::new());
    let story = sections(file, &met);
    (story, met.into_inner())
}

/// Refusals 1, 2 and 3, then the four sections in order.
fn sections<'f>(file: &'f [u8], met: &RefCell<Vec<Record>>) -> Reading<Story<'f>> {
    if file.len() < 20 || file.len() > 1_048_576 {
        return Err(1);
    }
    let trailer = file.len() - 20;
    if file[file.len() - 4..] != [0x49, 0x4B, 0x01, 0x00] {
        return Err(2);
    }
    let starts: Vec<usize> = (0..4).map(|n| number_at(file, trailer + 4 * n)).collect();
    if starts[0] != 0 || !starts.is_sorted() || starts[3] > trailer {
        return Err(3);
    }
    let part = |from, to| Part {
        file,
        at: from,
        to,
        met,
    };
    Ok(Story {
        globals: part(starts[0], starts[1]).until_end(name)?,
        externals: part(starts[1], starts[2]).until_end(name)?,
        root: part(starts[2], starts[3]).until_end(|p| node(p, 1))?,
        flows: part(starts[3], trailer).until_end(flow)?,
    })
}

/// The 32-bit little-endian number at a place.
fn number_at(file: &[u8], place: usize) -> usize {
    let byte = |n: usize| (file[place + n] as usize) << (8 * n);
    byte(0) + byte(1) + byte(2) + byte(3)
}

/// A container that is being read: the bytes from `at` to `to`, and the list of records met.
struct Part<'m, 'f> {
    file: &'f [u8],
    at: usize,
    to: usize,
    met: &'m RefCell<Vec<Record>>,
}

impl<'m, 'f> Part<'m, 'f> {
    /// Takes `count` bytes, which must be there.
    fn take(&mut self, count: usize) -> Reading<Self> {
        if self.to - self.at < count {
            return Err(4);
        }
        self.at += count;
        Ok(Part {
            file: self.file,
            at: self.at - count,
            to: self.at,
            met: self.met,
        })
    }

    /// One byte.
    fn byte(&mut self) -> Reading<u8> {
        let one = self.take(1)?;
        Ok(self.file[one.at])
    }

    /// A flag is 0 or 1.
    fn flag(&mut self) -> Reading<bool> {
        let byte = self.byte()?;
        if byte > 1 {
            return Err(5);
        }
        Ok(byte == 1)
    }

    /// A 32-bit length, then the part that has it.
    fn sized(&mut self) -> Reading<Self> {
        let field = self.take(4)?;
        self.take(number_at(self.file, field.at))
    }

    /// Pieces until nothing is left.
    fn until_end<T>(&mut self, piece: impl Fn(&mut Self) -> Reading<T>) -> Reading<Vec<T>> {
        let mut pieces = Vec::new();
        while self.at != self.to {
            pieces.push(piece(self)?);
        }
        Ok(pieces)
    }

    /// Refuses bytes left over.
    fn ended(&self) -> Reading<()> {
        if self.at != self.to {
            return Err(4);
        }
        Ok(())
    }
}

/// Count byte, then so many bytes.
fn name<'f>(part: &mut Part<'_, 'f>) -> Reading<Name<'f>> {
    let place = part.at as u32;
    let count = part.byte()?;
    let bytes = part.take(count as usize)?;
    Ok(Name {
        place,
        bytes: &bytes.file[bytes.at..bytes.to],
    })
}

/// Count byte, then so many names.
fn parameters<'f>(part: &mut Part<'_, 'f>) -> Reading<Vec<Name<'f>>> {
    let count = part.byte()?;
    let mut names = Vec::new();
    for _ in 0..count {
        names.push(name(part)?);
    }
    Ok(names)
}

/// Length; flag, what a stitch has too, stitches to the end.
fn flow<'f>(part: &mut Part<'_, 'f>) -> Reading<Flow<'f>> {
    let place = part.at as u32;
    let mut inside = part.sized()?;
    let is_function = inside.flag()?;
    let own = body(&mut inside)?;
    let stitches = inside.until_end(stitch)?;
    Ok(Flow {
        place,
        is_function,
        own,
        stitches,
    })
}

/// Length; name, parameters, divert parameters, node list.
fn stitch<'f>(part: &mut Part<'_, 'f>) -> Reading<Body<'f>> {
    let mut inside = part.sized()?;
    let stitch = body(&mut inside)?;
    inside.ended()?;
    Ok(stitch)
}

/// Name, parameters, divert parameters, node list.
fn body<'f>(part: &mut Part<'_, 'f>) -> Reading<Body<'f>> {
    let name = name(part)?;
    let own = parameters(part)?;
    let marks = parameters(part)?;
    let nodes = node_list(part, 1)?;
    Ok(Body {
        name,
        parameters: own,
        marks,
        nodes,
    })
}

/// 32-bit byte length, then nodes.
fn node_list<'f>(part: &mut Part<'_, 'f>, depth: u32) -> Reading<Vec<Node<'f>>> {
    part.sized()?.until_end(|p| node(p, depth))
}

/// The largest kind that has a meaning.
fn last_kind(class: Class) -> u8 {
    match class {
        Class::Node => 16,
        Class::Expression => 6,
        Class::Condition => 2,
    }
}

/// The header of a record: header fits, payload fits, kind, depth. Then the record is met.
fn header<'m, 'f>(
    part: &mut Part<'m, 'f>,
    class: Class,
    depth: u32,
) -> Reading<(u8, Part<'m, 'f>)> {
    let place = part.at as u32;
    let kind = part.byte()?;
    let payload = part.sized()?;
    if kind > last_kind(class) {
        return Err(5);
    }
    if depth > 64 {
        return Err(6);
    }
    part.met.borrow_mut().push(Record {
        place,
        class,
        kind,
        depth,
        first: payload.file[payload.at..payload.to].first().copied(),
    });
    Ok((kind, payload))
}

/// A node record.
fn node<'f>(part: &mut Part<'_, 'f>, depth: u32) -> Reading<Node<'f>> {
    let place = part.at as u32;
    let (kind, mut payload) = header(part, Class::Node, depth)?;
    let what = node_payload(kind, &mut payload, depth + 1)?;
    payload.ended()?;
    Ok(Node { place, kind, what })
}

/// The payload of a node by its kind; records in it have the depth given.
fn node_payload<'f>(kind: u8, part: &mut Part<'_, 'f>, depth: u32) -> Reading<What<'f>> {
    Ok(match kind {
        2 | 12 => What::Value(expression(part, depth)?),
        3 | 4 | 5 | 7 | 16 => What::Named(name(part)?, expressions(part, depth)?),
        8 => conditional(part, depth)?,
        9 => What::Switch(
            expression(part, depth)?,
            part.until_end(|p| branch(p, depth))?,
        ),
        10 => What::Sequence(part.until_end(|p| node_list(p, depth))?),
        13 => assignment(part, depth)?,
        14 => choice(part, depth)?,
        15 => What::Gather(name(part)?),
        _ => What::Empty,
    })
}

/// Expressions to the end.
fn expressions<'f>(part: &mut Part<'_, 'f>, depth: u32) -> Reading<Vec<Expression<'f>>> {
    part.until_end(|p| expression(p, depth))
}

/// Condition, list, flag, list if 1.
fn conditional<'f>(part: &mut Part<'_, 'f>, depth: u32) -> Reading<What<'f>> {
    let test = condition(part, depth)?;
    let mut lists = vec![node_list(part, depth)?];
    if part.flag()? {
        lists.push(node_list(part, depth)?);
    }
    Ok(What::Conditional(test, lists))
}

/// Flag, expression if 1, list.
fn branch<'f>(part: &mut Part<'_, 'f>, depth: u32) -> Reading<Branch<'f>> {
    let case = match part.flag()? {
        true => Some(expression(part, depth)?),
        false => None,
    };
    let nodes = node_list(part, depth)?;
    Ok(Branch { case, nodes })
}

/// Mode, name, expression.
fn assignment<'f>(part: &mut Part<'_, 'f>, depth: u32) -> Reading<What<'f>> {
    let mode = part.byte()?;
    if mode > 3 {
        return Err(5);
    }
    let target = name(part)?;
    Ok(What::Assignment(mode, target, expression(part, depth)?))
}

/// Flag, label name if 1, condition list, node list.
fn choice<'f>(part: &mut Part<'_, 'f>, depth: u32) -> Reading<What<'f>> {
    let label = match part.flag()? {
        true => Some(name(part)?),
        false => None,
    };
    let conditions = part.sized()?.until_end(|p| condition(p, depth))?;
    Ok(What::Choice(label, conditions, node_list(part, depth)?))
}

/// An expression record.
fn expression<'f>(part: &mut Part<'_, 'f>, depth: u32) -> Reading<Expression<'f>> {
    let place = part.at as u32;
    let (kind, mut payload) = header(part, Class::Expression, depth)?;
    let own = match kind {
        1 | 2 | 5 => Some(name(&mut payload)?),
        _ => None,
    };
    let mut inner = Vec::new();
    match kind {
        3 | 4 => inner.push(expression(&mut payload, depth + 1)?),
        5 => inner = expressions(&mut payload, depth + 1)?,
        6 => {
            inner.push(expression(&mut payload, depth + 1)?);
            inner.push(expression(&mut payload, depth + 1)?);
        }
        _ => {}
    }
    payload.ended()?;
    Ok(Expression {
        place,
        kind,
        name: own,
        inner,
    })
}

/// A condition record.
fn condition<'f>(part: &mut Part<'_, 'f>, depth: u32) -> Reading<Condition<'f>> {
    let place = part.at as u32;
    let (kind, mut payload) = header(part, Class::Condition, depth)?;
    let mut condition = Condition {
        place,
        name: None,
        value: None,
    };
    match kind {
        1 => condition.name = Some(name(&mut payload)?),
        2 => condition.value = Some(expression(&mut payload, depth + 1)?),
        _ => {}
    }
    payload.ended()?;
    Ok(condition)
}
