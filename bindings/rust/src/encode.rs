//! The encoder: a story to the bytes of the flat story file.

use crate::layout::{DEEPEST, LONGEST_FILE, LONGEST_NAME, MARK};
use crate::name::Name;
use crate::story::{Branch, Call, Choice, Condition, Expression, Flow, Node, Stitch, Story};
use std::fmt;

/// Why a story has no flat file.
#[derive(Debug, Clone, PartialEq, Eq)]
pub enum EncodeError {
    /// A name has more than 255 bytes.
    NameTooLong {
        /// The name.
        name: Name,
    },
    /// A flow or stitch has more than 255 parameters.
    TooManyParameters {
        /// The flow or stitch.
        flow: Name,
        /// How many it has.
        count: usize,
    },
    /// Records nest deeper than 64.
    TooDeep,
    /// The file would have more than 1,048,576 bytes.
    FileTooLong {
        /// How many it would have.
        length: usize,
    },
}

impl fmt::Display for EncodeError {
    /// One line for the person who runs the build.
    fn fmt(&self, f: &mut fmt::Formatter<'_>) -> fmt::Result {
        match self {
            Self::NameTooLong { name } => {
                let length = name.as_bytes().len();
                write!(f, "name of {length} bytes (at most {LONGEST_NAME}): {name}")
            }
            Self::TooManyParameters { flow, count } => {
                write!(f, "{count} parameters (at most {LONGEST_NAME}) in '{flow}'")
            }
            Self::TooDeep => write!(f, "records nest deeper than {DEEPEST}"),
            Self::FileTooLong { length } => {
                write!(f, "file of {length} bytes (at most {LONGEST_FILE})")
            }
        }
    }
}

impl std::error::Error for EncodeError {}

type Encoded = Result<(), EncodeError>;

impl Story {
    /// The story's flat file, which is readable.
    ///
    /// ```
    /// use qaabireed::{Node, Story};
    ///
    /// let file = Story::new().node(Node::divert("x")).encode()?;
    /// assert_eq!(file[..7], *b"\x03\x02\0\0\0\x01x");
    /// # Ok::<(), qaabireed::EncodeError>(())
    /// ```
    pub fn encode(&self) -> Result<Vec<u8>, EncodeError> {
        let mut writer = Writer { file: Vec::new() };
        let mut starts = [0; 4];
        writer.names(&self.globals)?;
        starts[1] = writer.file.len();
        writer.names(&self.externals)?;
        starts[2] = writer.file.len();
        writer.nodes(&self.root, 1)?;
        starts[3] = writer.file.len();
        self.flows.iter().try_for_each(|flow| writer.flow(flow))?;
        for start in starts {
            writer.file.extend(number(start));
        }
        writer.file.extend(MARK);
        match writer.file.len() {
            length if length > LONGEST_FILE => Err(EncodeError::FileTooLong { length }),
            _ => Ok(writer.file),
        }
    }
}

/// A 32-bit number; a larger one only occurs in a file that is too long anyway.
fn number(value: usize) -> [u8; 4] {
    u32::try_from(value).unwrap_or(u32::MAX).to_le_bytes()
}

/// Stops at the first record that lies too deep, before anything inside it is visited.
fn within(depth: usize) -> Encoded {
    match depth > DEEPEST {
        true => Err(EncodeError::TooDeep),
        false => Ok(()),
    }
}

/// The file as far as it is written.
struct Writer {
    file: Vec<u8>,
}

impl Writer {
    /// A 32-bit length and what it counts.
    fn sized(&mut self, inside: impl FnOnce(&mut Self) -> Encoded) -> Encoded {
        let place = self.file.len();
        self.file.extend([0; 4]);
        inside(self)?;
        let length = number(self.file.len() - place - 4);
        self.file[place..place + 4].copy_from_slice(&length);
        Ok(())
    }

    /// Kind byte, payload length, payload.
    fn record(&mut self, kind: u8, payload: impl FnOnce(&mut Self) -> Encoded) -> Encoded {
        self.file.push(kind);
        self.sized(payload)
    }

    /// Count byte and bytes.
    fn name(&mut self, name: &Name) -> Encoded {
        let Ok(count) = u8::try_from(name.as_bytes().len()) else {
            return Err(EncodeError::NameTooLong { name: name.clone() });
        };
        self.file.push(count);
        self.file.extend(name.as_bytes());
        Ok(())
    }

    /// Names back to back.
    fn names(&mut self, names: &[Name]) -> Encoded {
        names.iter().try_for_each(|name| self.name(name))
    }

    /// A count byte and so many names.
    fn parameters(&mut self, parameters: &[Name], flow: &Name) -> Encoded {
        let Ok(count) = u8::try_from(parameters.len()) else {
            return Err(EncodeError::TooManyParameters {
                flow: flow.clone(),
                count: parameters.len(),
            });
        };
        self.file.push(count);
        self.names(parameters)
    }

    /// A knot or function with its stitches.
    fn flow(&mut self, flow: &Flow) -> Encoded {
        self.sized(|w| {
            w.flag(flow.is_function);
            w.name(&flow.name)?;
            w.parameters(&flow.parameters, &flow.name)?;
            w.parameters(&flow.divert_parameters, &flow.name)?;
            w.list(&flow.nodes, 1)?;
            flow.stitches.iter().try_for_each(|one| w.stitch(one))
        })
    }

    /// A stitch.
    fn stitch(&mut self, stitch: &Stitch) -> Encoded {
        self.sized(|w| {
            w.name(&stitch.name)?;
            w.parameters(&stitch.parameters, &stitch.name)?;
            w.parameters(&stitch.divert_parameters, &stitch.name)?;
            w.list(&stitch.nodes, 1)
        })
    }

    /// A byte that is 0 or 1.
    fn flag(&mut self, set: bool) {
        self.file.push(u8::from(set));
    }

    /// Nodes back to back.
    fn nodes(&mut self, nodes: &[Node], depth: usize) -> Encoded {
        nodes.iter().try_for_each(|node| self.node(node, depth))
    }

    /// A node list.
    fn list(&mut self, nodes: &[Node], depth: usize) -> Encoded {
        self.sized(|w| w.nodes(nodes, depth))
    }

    /// One node; what is inside it lies one deeper.
    fn node(&mut self, node: &Node, depth: usize) -> Encoded {
        within(depth)?;
        let inner = depth + 1;
        match node {
            Node::Plain => self.record(0, |_| Ok(())),
            Node::Newline => self.record(1, |_| Ok(())),
            Node::OutputExpression(value) => self.record(2, |w| w.expression(value, inner)),
            Node::Divert(call) => self.record(3, |w| w.call(call, inner)),
            Node::TunnelDivert(call) => self.record(4, |w| w.call(call, inner)),
            Node::ThreadDivert(call) => self.record(5, |w| w.call(call, inner)),
            Node::TunnelReturn => self.record(6, |_| Ok(())),
            Node::TunnelOnwardsWithTarget(call) => self.record(7, |w| w.call(call, inner)),
            Node::Conditional {
                condition,
                when_true,
                when_false,
            } => self.record(8, |w| {
                w.conditional(condition, when_true, when_false.as_deref(), inner)
            }),
            Node::SwitchConditional { value, branches } => {
                self.record(9, |w| w.switch(value, branches, inner))
            }
            Node::Sequence(lists) => self.record(10, |w| {
                lists.iter().try_for_each(|list| w.list(list, inner))
            }),
            Node::ReturnBool => self.record(11, |_| Ok(())),
            Node::ReturnExpr(value) => self.record(12, |w| w.expression(value, inner)),
            Node::Assignment { mode, name, value } => self.record(13, |w| {
                w.file.push(*mode as u8);
                w.name(name)?;
                w.expression(value, inner)
            }),
            Node::Choice(choice) => self.record(14, |w| w.choice(choice, inner)),
            Node::GatherLabel(label) => self.record(15, |w| w.name(label)),
            Node::VoidCall(call) => self.record(16, |w| w.call(call, inner)),
        }
    }

    /// A name and expressions to the end.
    fn call(&mut self, call: &Call, depth: usize) -> Encoded {
        self.name(&call.name)?;
        let mut arguments = call.arguments.iter();
        arguments.try_for_each(|argument| self.expression(argument, depth))
    }

    /// Condition, list, flag, list if the flag is 1.
    fn conditional(
        &mut self,
        condition: &Condition,
        when_true: &[Node],
        when_false: Option<&[Node]>,
        depth: usize,
    ) -> Encoded {
        self.condition(condition, depth)?;
        self.list(when_true, depth)?;
        self.flag(when_false.is_some());
        when_false.map_or(Ok(()), |nodes| self.list(nodes, depth))
    }

    /// Expression, then branches: flag, expression if 1, list.
    fn switch(&mut self, value: &Expression, branches: &[Branch], depth: usize) -> Encoded {
        self.expression(value, depth)?;
        for branch in branches {
            self.flag(branch.case.is_some());
            if let Some(case) = &branch.case {
                self.expression(case, depth)?;
            }
            self.list(&branch.nodes, depth)?;
        }
        Ok(())
    }

    /// Flag, label if 1, condition list, node list.
    fn choice(&mut self, choice: &Choice, depth: usize) -> Encoded {
        self.flag(choice.label.is_some());
        if let Some(label) = &choice.label {
            self.name(label)?;
        }
        self.sized(|w| {
            let mut conditions = choice.conditions.iter();
            conditions.try_for_each(|condition| w.condition(condition, depth))
        })?;
        self.list(&choice.body, depth)
    }

    /// One expression.
    fn expression(&mut self, value: &Expression, depth: usize) -> Encoded {
        within(depth)?;
        let inner = depth + 1;
        match value {
            Expression::Constant => self.record(0, |_| Ok(())),
            Expression::Variable(name) => self.record(1, |w| w.name(name)),
            Expression::DivertTarget(name) => self.record(2, |w| w.name(name)),
            Expression::Negate(one) => self.record(3, |w| w.expression(one, inner)),
            Expression::Not(one) => self.record(4, |w| w.expression(one, inner)),
            Expression::FunctionCall(call) => self.record(5, |w| w.call(call, inner)),
            Expression::Binary(left, right) => self.record(6, |w| {
                w.expression(left, inner)?;
                w.expression(right, inner)
            }),
        }
    }

    /// One condition.
    fn condition(&mut self, condition: &Condition, depth: usize) -> Encoded {
        within(depth)?;
        match condition {
            Condition::Bool => self.record(0, |_| Ok(())),
            Condition::FunctionCall(name) => self.record(1, |w| w.name(name)),
            Condition::Expression(value) => self.record(2, |w| w.expression(value, depth + 1)),
        }
    }
}
