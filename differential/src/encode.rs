//! The encoder: a parsed story to the bytes of the flat story file.

use crate::ast::{AssignMode, Choice, Condition, Divert, Expression, Flow, Node, ParsedStory};
use crate::layout::{self, DEEPEST, LONGEST_FILE, record, sized};
use std::fmt;

/// Why a story has no flat file.
#[derive(Debug, Clone, PartialEq, Eq)]
pub enum EncodeError {
    NameTooLong { name: String },
    TooManyParameters { flow: String, count: usize },
    StitchWithChildren { stitch: String },
    TooDeep,
    FileTooLong { length: usize },
}

impl fmt::Display for EncodeError {
    /// One line for the person who runs the build.
    fn fmt(&self, f: &mut fmt::Formatter<'_>) -> fmt::Result {
        match self {
            Self::NameTooLong { name } => {
                write!(f, "name of {} bytes (at most 255): {name}", name.len())
            }
            Self::TooManyParameters { flow, count } => {
                write!(f, "{count} parameters (at most 255) in '{flow}'")
            }
            Self::StitchWithChildren { stitch } => {
                write!(f, "stitch '{stitch}' has children; the file has none")
            }
            Self::TooDeep => write!(f, "records nest deeper than {DEEPEST}"),
            Self::FileTooLong { length } => {
                write!(f, "file of {length} bytes (at most {LONGEST_FILE})")
            }
        }
    }
}

impl std::error::Error for EncodeError {}

type Encoded = Result<Vec<u8>, EncodeError>;

/// The flat file of a story.
pub fn encode(story: &ParsedStory) -> Encoded {
    let globals = names(story.globals.iter().map(|global| &global.name))?;
    let externals = names(&story.external_functions)?;
    let root = nodes(&story.root, 1)?;
    let flows = join(&story.flows, flow)?;
    let length = globals.len() + externals.len() + root.len() + flows.len() + layout::TRAILER;
    if length > LONGEST_FILE {
        return Err(EncodeError::FileTooLong { length });
    }
    Ok(layout::file(&globals, &externals, &root, &flows))
}

/// The encodings of some pieces, one after the other.
fn join<T>(pieces: impl IntoIterator<Item = T>, encode: impl Fn(T) -> Encoded) -> Encoded {
    let mut bytes = Vec::new();
    for piece in pieces {
        bytes.extend(encode(piece)?);
    }
    Ok(bytes)
}

/// One name.
fn name(text: &str) -> Encoded {
    if text.len() > 255 {
        return Err(EncodeError::NameTooLong {
            name: text.to_string(),
        });
    }
    Ok(layout::name(text.as_bytes()))
}

/// Names back to back.
fn names<'a>(texts: impl IntoIterator<Item = &'a String>) -> Encoded {
    join(texts, |text| name(text))
}

/// A flow with its stitches.
fn flow(flow: &Flow) -> Encoded {
    let flag = vec![u8::from(flow.is_function)];
    let stitches = join(&flow.children, stitch)?;
    Ok(sized(&[flag, flow_fields(flow)?, stitches].concat()))
}

/// A stitch, which has no function flag and no children.
fn stitch(stitch: &Flow) -> Encoded {
    if !stitch.children.is_empty() {
        return Err(EncodeError::StitchWithChildren {
            stitch: stitch.name.clone(),
        });
    }
    Ok(sized(&flow_fields(stitch)?))
}

/// Name, parameters, divert parameters and node list.
fn flow_fields(flow: &Flow) -> Encoded {
    let fields = [
        name(&flow.name)?,
        counted(&flow.parameters, &flow.name)?,
        counted(&flow.divert_parameters, &flow.name)?,
        sized(&nodes(&flow.nodes, 1)?),
    ];
    Ok(fields.concat())
}

/// A count byte and so many names.
fn counted(parameters: &[String], flow: &str) -> Encoded {
    let Ok(count) = u8::try_from(parameters.len()) else {
        return Err(EncodeError::TooManyParameters {
            flow: flow.to_string(),
            count: parameters.len(),
        });
    };
    Ok([vec![count], names(parameters)?].concat())
}

/// Nodes back to back.
fn nodes(nodes: &[Node], depth: usize) -> Encoded {
    join(nodes, |one| node(one, depth))
}

/// A node list.
fn list(inner: &[Node], depth: usize) -> Encoded {
    Ok(sized(&nodes(inner, depth)?))
}

/// Stops at the first record that lies too deep, before anything inside it is visited.
fn within(depth: usize) -> Result<(), EncodeError> {
    if depth > DEEPEST {
        return Err(EncodeError::TooDeep);
    }
    Ok(())
}

/// One node.
fn node(node: &Node, depth: usize) -> Encoded {
    within(depth)?;
    let inner = depth + 1;
    let (kind, payload) = match node {
        Node::Text(_) | Node::Tag(_) | Node::Glue | Node::GatherPoint | Node::ReturnVoid => {
            (0, vec![])
        }
        Node::Newline => (1, vec![]),
        Node::OutputExpression(value) => (2, expression(value, inner)?),
        Node::Divert(divert) => (3, divert_payload(divert, inner)?),
        Node::TunnelDivert { target, args, .. } => (4, call(target, args, inner)?),
        Node::ThreadDivert(divert) => (5, divert_payload(divert, inner)?),
        Node::TunnelReturn => (6, vec![]),
        Node::TunnelOnwardsWithTarget { target, args } => (7, call(target, args, inner)?),
        Node::Conditional {
            condition,
            when_true,
            when_false,
        } => (
            8,
            conditional(condition, when_true, when_false.as_deref(), inner)?,
        ),
        Node::SwitchConditional { value, branches } => (9, switch(value, branches, inner)?),
        Node::Sequence(sequence) => (10, join(&sequence.branches, |one| list(one, inner))?),
        Node::ReturnBool(_) => (11, vec![]),
        Node::ReturnExpr(value) => (12, expression(value, inner)?),
        Node::Assignment {
            variable_name,
            expression: value,
            mode,
        } => (13, assignment(variable_name, value, mode, inner)?),
        Node::Choice(one) => (14, choice(one, inner)?),
        Node::GatherLabel { label, .. } => (15, name(label)?),
        Node::VoidCall { name, args } => (16, call(name, args, inner)?),
    };
    Ok(record(kind, &payload))
}

/// The payload of a divert or thread.
fn divert_payload(divert: &Divert, depth: usize) -> Encoded {
    call(&divert.target, &divert.arguments, depth)
}

/// A name and expressions to the end.
fn call(target: &str, arguments: &[Expression], depth: usize) -> Encoded {
    let arguments = join(arguments, |one| expression(one, depth))?;
    Ok([name(target)?, arguments].concat())
}

/// Condition, list, flag, list if the flag is 1.
fn conditional(
    test: &Condition,
    when_true: &[Node],
    when_false: Option<&[Node]>,
    depth: usize,
) -> Encoded {
    let otherwise = match when_false {
        None => vec![0],
        Some(nodes) => [vec![1], list(nodes, depth)?].concat(),
    };
    Ok([condition(test, depth)?, list(when_true, depth)?, otherwise].concat())
}

/// Expression, then branches: flag, expression if 1, list.
fn switch(
    value: &Expression,
    branches: &[(Option<Expression>, Vec<Node>)],
    depth: usize,
) -> Encoded {
    let branches = join(branches, |(case, body)| {
        let case = match case {
            None => vec![0],
            Some(case) => [vec![1], expression(case, depth)?].concat(),
        };
        Ok([case, list(body, depth)?].concat())
    })?;
    Ok([expression(value, depth)?, branches].concat())
}

/// Mode, name, expression.
fn assignment(target: &str, value: &Expression, mode: &AssignMode, depth: usize) -> Encoded {
    let mode = match mode {
        AssignMode::Set => 0,
        AssignMode::TempSet => 1,
        AssignMode::AddAssign => 2,
        AssignMode::SubtractAssign => 3,
    };
    Ok([vec![mode], name(target)?, expression(value, depth)?].concat())
}

/// Flag, label if 1, condition list, node list.
fn choice(choice: &Choice, depth: usize) -> Encoded {
    let label = match &choice.label {
        None => vec![0],
        Some(label) => [vec![1], name(label)?].concat(),
    };
    let conditions = sized(&join(&choice.conditions, |one| condition(one, depth))?);
    Ok([label, conditions, list(&choice.body, depth)?].concat())
}

/// One expression.
fn expression(value: &Expression, depth: usize) -> Encoded {
    within(depth)?;
    let inner = depth + 1;
    let (kind, payload) = match value {
        Expression::Bool(_)
        | Expression::Int(_)
        | Expression::Float(_)
        | Expression::Str(_)
        | Expression::ListItems(_)
        | Expression::EmptyList => (0, vec![]),
        Expression::Variable(variable) => (1, name(variable)?),
        Expression::DivertTarget(target) => (2, name(target)?),
        Expression::Negate(one) => (3, expression(one, inner)?),
        Expression::Not(one) => (4, expression(one, inner)?),
        Expression::FunctionCall { name, args } => (5, call(name, args, inner)?),
        Expression::Binary { left, right, .. } => (
            6,
            [expression(left, inner)?, expression(right, inner)?].concat(),
        ),
    };
    Ok(record(kind, &payload))
}

/// One condition.
fn condition(condition: &Condition, depth: usize) -> Encoded {
    within(depth)?;
    let (kind, payload) = match condition {
        Condition::Bool(_) => (0, vec![]),
        Condition::FunctionCall(called) => (1, name(called)?),
        Condition::Expression(value) => (2, expression(value, depth + 1)?),
    };
    Ok(record(kind, &payload))
}
