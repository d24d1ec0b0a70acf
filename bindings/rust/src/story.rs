//! Stories as trees, built piece by piece; what the rules never ask about is not in them.

use crate::name::Name;

/// A story: what a parser hands on, as far as the rules ask about it.
///
/// ```
/// use qaabireed::{Choice, Condition, Expression, Flow, Node, Stitch, Story, Validator};
///
/// // VAR gold = 5
/// // -> hall
/// // == hall
/// // {gold: -> hall.dark}
/// // * (look) [Look around] -> dark
/// // = dark
/// // ~ temp n = 1
/// // -> END
/// let rich = Condition::from(Expression::variable("gold"));
/// let dark = Stitch::new("dark")
///     .node(Node::temp("n", Expression::Constant))
///     .node(Node::divert("END"));
/// let hall = Flow::knot("hall")
///     .node(Node::conditional(rich, [Node::divert("hall.dark")]))
///     .node(Choice::new().label("look").node(Node::divert("dark")))
///     .stitch(dark);
/// let story = Story::new()
///     .global("gold")
///     .node(Node::divert("hall"))
///     .flow(hall);
/// assert!(Validator::new().check_story(&story)?.is_accepted());
/// # Ok::<(), qaabireed::EncodeError>(())
/// ```
#[derive(Debug, Clone, Default, PartialEq, Eq)]
pub struct Story {
    /// The names of `VAR` declarations.
    pub globals: Vec<Name>,
    /// The names of `EXTERNAL` declarations.
    pub externals: Vec<Name>,
    /// What stands before the first knot.
    pub root: Vec<Node>,
    /// Knots and functions.
    pub flows: Vec<Flow>,
}

impl Story {
    /// The empty story.
    pub fn new() -> Self {
        Story::default()
    }

    /// Adds a global.
    pub fn global(mut self, name: impl Into<Name>) -> Self {
        self.globals.push(name.into());
        self
    }

    /// Adds an external function.
    pub fn external(mut self, name: impl Into<Name>) -> Self {
        self.externals.push(name.into());
        self
    }

    /// Adds a node to the root.
    pub fn node(mut self, node: impl Into<Node>) -> Self {
        self.root.push(node.into());
        self
    }

    /// Adds nodes to the root.
    pub fn nodes(mut self, nodes: impl IntoIterator<Item = Node>) -> Self {
        self.root.extend(nodes);
        self
    }

    /// Adds a knot or function.
    pub fn flow(mut self, flow: Flow) -> Self {
        self.flows.push(flow);
        self
    }
}

/// A knot or function.
#[derive(Debug, Clone, Default, PartialEq, Eq)]
pub struct Flow {
    /// Whether it is a function.
    pub is_function: bool,
    /// Its name.
    pub name: Name,
    /// All its parameters.
    pub parameters: Vec<Name>,
    /// Those written `-> p`, which stand among the parameters too.
    pub divert_parameters: Vec<Name>,
    /// Its own nodes.
    pub nodes: Vec<Node>,
    /// Its stitches.
    pub stitches: Vec<Stitch>,
}

impl Flow {
    /// An empty knot.
    pub fn knot(name: impl Into<Name>) -> Self {
        Flow {
            name: name.into(),
            ..Flow::default()
        }
    }

    /// An empty function.
    pub fn function(name: impl Into<Name>) -> Self {
        Flow {
            is_function: true,
            ..Flow::knot(name)
        }
    }

    /// Adds a parameter written `p`.
    pub fn parameter(mut self, name: impl Into<Name>) -> Self {
        self.parameters.push(name.into());
        self
    }

    /// Adds a parameter written `-> p`.
    pub fn divert_parameter(mut self, name: impl Into<Name>) -> Self {
        let name = name.into();
        self.parameters.push(name.clone());
        self.divert_parameters.push(name);
        self
    }

    /// Adds a node.
    pub fn node(mut self, node: impl Into<Node>) -> Self {
        self.nodes.push(node.into());
        self
    }

    /// Adds nodes.
    pub fn nodes(mut self, nodes: impl IntoIterator<Item = Node>) -> Self {
        self.nodes.extend(nodes);
        self
    }

    /// Adds a stitch.
    pub fn stitch(mut self, stitch: Stitch) -> Self {
        self.stitches.push(stitch);
        self
    }
}

/// A stitch of a knot.
#[derive(Debug, Clone, Default, PartialEq, Eq)]
pub struct Stitch {
    /// Its name, without the knot's.
    pub name: Name,
    /// All its parameters.
    pub parameters: Vec<Name>,
    /// Those written `-> p`, which stand among the parameters too.
    pub divert_parameters: Vec<Name>,
    /// Its nodes.
    pub nodes: Vec<Node>,
}

impl Stitch {
    /// An empty stitch.
    pub fn new(name: impl Into<Name>) -> Self {
        Stitch {
            name: name.into(),
            ..Stitch::default()
        }
    }

    /// Adds a parameter written `p`.
    pub fn parameter(mut self, name: impl Into<Name>) -> Self {
        self.parameters.push(name.into());
        self
    }

    /// Adds a parameter written `-> p`.
    pub fn divert_parameter(mut self, name: impl Into<Name>) -> Self {
        let name = name.into();
        self.parameters.push(name.clone());
        self.divert_parameters.push(name);
        self
    }

    /// Adds a node.
    pub fn node(mut self, node: impl Into<Node>) -> Self {
        self.nodes.push(node.into());
        self
    }

    /// Adds nodes.
    pub fn nodes(mut self, nodes: impl IntoIterator<Item = Node>) -> Self {
        self.nodes.extend(nodes);
        self
    }
}

/// A node; the kinds are those of the file, 0 to 16 in this order.
#[derive(Debug, Clone, PartialEq, Eq)]
pub enum Node {
    /// Text, a tag, glue, a gather without label, or a return without value.
    Plain,
    /// The end of a line.
    Newline,
    /// A printed expression.
    OutputExpression(Expression),
    /// `-> target(arguments)`.
    Divert(Call),
    /// `-> target(arguments) ->`.
    TunnelDivert(Call),
    /// `<- target(arguments)`.
    ThreadDivert(Call),
    /// `->->`.
    TunnelReturn,
    /// `->-> target(arguments)`.
    TunnelOnwardsWithTarget(Call),
    /// `{condition: .. | ..}`.
    Conditional {
        /// What is asked.
        condition: Condition,
        /// The first branch.
        when_true: Vec<Node>,
        /// The second branch, if there is one.
        when_false: Option<Vec<Node>>,
    },
    /// `{value: - case: ..}`.
    SwitchConditional {
        /// What is compared with the cases.
        value: Expression,
        /// The branches.
        branches: Vec<Branch>,
    },
    /// `{a|b|c}`, of any mode.
    Sequence(Vec<Vec<Node>>),
    /// A return of true or false.
    ReturnBool,
    /// A return of a value.
    ReturnExpr(Expression),
    /// `~ name = value` in its four forms.
    Assignment {
        /// Which form.
        mode: AssignMode,
        /// The variable.
        name: Name,
        /// The value.
        value: Expression,
    },
    /// A choice.
    Choice(Choice),
    /// `- (label)`.
    GatherLabel(Name),
    /// `~ name(arguments)`.
    VoidCall(Call),
}

impl Node {
    /// A printed expression.
    pub fn output(value: Expression) -> Self {
        Node::OutputExpression(value)
    }

    /// A divert.
    pub fn divert(target: impl Into<Call>) -> Self {
        Node::Divert(target.into())
    }

    /// A tunnel.
    pub fn tunnel(target: impl Into<Call>) -> Self {
        Node::TunnelDivert(target.into())
    }

    /// A thread.
    pub fn thread(target: impl Into<Call>) -> Self {
        Node::ThreadDivert(target.into())
    }

    /// A tunnel return that goes on to a target.
    pub fn onwards(target: impl Into<Call>) -> Self {
        Node::TunnelOnwardsWithTarget(target.into())
    }

    /// A call whose value is not used.
    pub fn call(called: impl Into<Call>) -> Self {
        Node::VoidCall(called.into())
    }

    /// A conditional of one branch.
    pub fn conditional(
        condition: impl Into<Condition>,
        when_true: impl IntoIterator<Item = Node>,
    ) -> Self {
        Node::Conditional {
            condition: condition.into(),
            when_true: when_true.into_iter().collect(),
            when_false: None,
        }
    }

    /// A conditional of two branches.
    pub fn conditional_else(
        condition: impl Into<Condition>,
        when_true: impl IntoIterator<Item = Node>,
        when_false: impl IntoIterator<Item = Node>,
    ) -> Self {
        Node::Conditional {
            condition: condition.into(),
            when_true: when_true.into_iter().collect(),
            when_false: Some(when_false.into_iter().collect()),
        }
    }

    /// A switch.
    pub fn switch(value: Expression, branches: impl IntoIterator<Item = Branch>) -> Self {
        Node::SwitchConditional {
            value,
            branches: branches.into_iter().collect(),
        }
    }

    /// A sequence of branches.
    pub fn sequence(branches: impl IntoIterator<Item = Vec<Node>>) -> Self {
        Node::Sequence(branches.into_iter().collect())
    }

    /// An assignment of any form.
    pub fn assign(mode: AssignMode, name: impl Into<Name>, value: Expression) -> Self {
        Node::Assignment {
            mode,
            name: name.into(),
            value,
        }
    }

    /// `~ temp name = value`.
    pub fn temp(name: impl Into<Name>, value: Expression) -> Self {
        Node::assign(AssignMode::TempSet, name, value)
    }

    /// `~ name = value`.
    pub fn set(name: impl Into<Name>, value: Expression) -> Self {
        Node::assign(AssignMode::Set, name, value)
    }

    /// A labelled gather.
    pub fn gather(label: impl Into<Name>) -> Self {
        Node::GatherLabel(label.into())
    }
}

/// The forms of an assignment; the modes are 0 to 3 in this order.
#[derive(Debug, Clone, Copy, PartialEq, Eq)]
pub enum AssignMode {
    /// `~ x = value`.
    Set,
    /// `~ temp x = value`.
    TempSet,
    /// `~ x += value`.
    AddAssign,
    /// `~ x -= value`.
    SubtractAssign,
}

/// A name with arguments: what is called or diverted to.
#[derive(Debug, Clone, Default, PartialEq, Eq)]
pub struct Call {
    /// The target or called name.
    pub name: Name,
    /// The arguments.
    pub arguments: Vec<Expression>,
}

impl Call {
    /// A name without arguments.
    pub fn new(name: impl Into<Name>) -> Self {
        Call {
            name: name.into(),
            arguments: Vec::new(),
        }
    }

    /// Adds an argument.
    pub fn argument(mut self, value: Expression) -> Self {
        self.arguments.push(value);
        self
    }
}

impl<T: Into<Name>> From<T> for Call {
    fn from(name: T) -> Self {
        Call::new(name)
    }
}

/// A branch of a switch.
#[derive(Debug, Clone, Default, PartialEq, Eq)]
pub struct Branch {
    /// What the value is compared with; none for `else`.
    pub case: Option<Expression>,
    /// What is in the branch.
    pub nodes: Vec<Node>,
}

impl Branch {
    /// The branch of a case.
    pub fn case(case: Expression, nodes: impl IntoIterator<Item = Node>) -> Self {
        Branch {
            case: Some(case),
            nodes: nodes.into_iter().collect(),
        }
    }

    /// The branch `else`.
    pub fn otherwise(nodes: impl IntoIterator<Item = Node>) -> Self {
        Branch {
            case: None,
            nodes: nodes.into_iter().collect(),
        }
    }
}

/// A choice.
#[derive(Debug, Clone, Default, PartialEq, Eq)]
pub struct Choice {
    /// Its label, if it has one.
    pub label: Option<Name>,
    /// Its conditions.
    pub conditions: Vec<Condition>,
    /// What follows when it is taken.
    pub body: Vec<Node>,
}

impl Choice {
    /// A choice without label, conditions and body.
    pub fn new() -> Self {
        Choice::default()
    }

    /// Gives it a label.
    pub fn label(mut self, label: impl Into<Name>) -> Self {
        self.label = Some(label.into());
        self
    }

    /// Adds a condition.
    pub fn condition(mut self, condition: impl Into<Condition>) -> Self {
        self.conditions.push(condition.into());
        self
    }

    /// Adds a node to its body.
    pub fn node(mut self, node: impl Into<Node>) -> Self {
        self.body.push(node.into());
        self
    }

    /// Adds nodes to its body.
    pub fn nodes(mut self, nodes: impl IntoIterator<Item = Node>) -> Self {
        self.body.extend(nodes);
        self
    }
}

impl From<Choice> for Node {
    fn from(choice: Choice) -> Self {
        Node::Choice(choice)
    }
}

/// An expression; the kinds are those of the file, 0 to 6 in this order.
#[derive(Debug, Clone, PartialEq, Eq)]
pub enum Expression {
    /// A number, string, truth value or list.
    Constant,
    /// A variable.
    Variable(Name),
    /// `-> target` as a value.
    DivertTarget(Name),
    /// `-x`.
    Negate(Box<Expression>),
    /// `not x`.
    Not(Box<Expression>),
    /// A called function.
    FunctionCall(Call),
    /// Two expressions and an operator.
    Binary(Box<Expression>, Box<Expression>),
}

impl Expression {
    /// A variable.
    pub fn variable(name: impl Into<Name>) -> Self {
        Expression::Variable(name.into())
    }

    /// A divert target as a value.
    pub fn target(name: impl Into<Name>) -> Self {
        Expression::DivertTarget(name.into())
    }

    /// A negated number.
    pub fn negate(value: Expression) -> Self {
        Expression::Negate(Box::new(value))
    }

    /// A negated truth value.
    pub fn negation(value: Expression) -> Self {
        Expression::Not(Box::new(value))
    }

    /// A called function.
    pub fn call(called: impl Into<Call>) -> Self {
        Expression::FunctionCall(called.into())
    }

    /// Two expressions and any operator.
    pub fn binary(left: Expression, right: Expression) -> Self {
        Expression::Binary(Box::new(left), Box::new(right))
    }
}

/// A condition; the kinds are those of the file, 0 to 2 in this order.
#[derive(Debug, Clone, PartialEq, Eq)]
pub enum Condition {
    /// true or false.
    Bool,
    /// A called function without arguments.
    FunctionCall(Name),
    /// An expression.
    Expression(Expression),
}

impl From<Expression> for Condition {
    fn from(value: Expression) -> Self {
        Condition::Expression(value)
    }
}
