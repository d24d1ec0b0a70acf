//! Short forms for parts of a story, and walks over a story's names and bodies.

use crate::ast::{
    AssignMode, BinaryOperator, Condition, Divert, Expression, Flow, GlobalVariable, Node,
    ParsedStory, Sequence, SequenceMode,
};
use crate::decode::bare_choice;

/// A divert without arguments.
pub fn divert(target: &str) -> Node {
    jump(3, target, Vec::new())
}

/// A node of kind 3, 4 or 5.
pub fn jump(kind: u8, target: &str, arguments: Vec<Expression>) -> Node {
    let target = target.to_string();
    match kind {
        3 => Node::Divert(Divert { target, arguments }),
        4 => Node::TunnelDivert {
            target,
            is_variable: false,
            args: arguments,
        },
        5 => Node::ThreadDivert(Divert { target, arguments }),
        _ => panic!("kind {kind} is no jump"),
    }
}

/// A tunnel return with a target.
pub fn onwards(target: &str) -> Node {
    Node::TunnelOnwardsWithTarget {
        target: target.to_string(),
        args: Vec::new(),
    }
}

/// An assignment of a constant.
pub fn assign(mode: AssignMode, name: &str) -> Node {
    Node::Assignment {
        variable_name: name.to_string(),
        expression: constant(),
        mode,
    }
}

/// A temp.
pub fn temp(name: &str) -> Node {
    assign(AssignMode::TempSet, name)
}

/// A labelled gather.
pub fn gather(label: &str) -> Node {
    Node::GatherLabel {
        label: label.to_string(),
        level: 1,
        indent: 0,
    }
}

/// A choice without conditions.
pub fn choice(label: Option<&str>, body: Vec<Node>) -> Node {
    conditional_choice(label, Vec::new(), body)
}

/// A choice with conditions.
pub fn conditional_choice(
    label: Option<&str>,
    conditions: Vec<Condition>,
    body: Vec<Node>,
) -> Node {
    Node::Choice(bare_choice(label.map(str::to_string), conditions, body))
}

/// A conditional on a constant.
pub fn conditional(when_true: Vec<Node>, when_false: Option<Vec<Node>>) -> Node {
    Node::Conditional {
        condition: Condition::Bool(true),
        when_true,
        when_false,
    }
}

/// A switch on a constant with one default branch for each list.
pub fn switch(lists: Vec<Vec<Node>>) -> Node {
    Node::SwitchConditional {
        value: constant(),
        branches: lists.into_iter().map(|list| (None, list)).collect(),
    }
}

/// A sequence.
pub fn sequence(branches: Vec<Vec<Node>>) -> Node {
    Node::Sequence(Sequence {
        mode: SequenceMode::Stopping,
        branches,
    })
}

/// A printed expression.
pub fn output(value: Expression) -> Node {
    Node::OutputExpression(value)
}

/// A call statement.
pub fn void_call(name: &str, args: Vec<Expression>) -> Node {
    Node::VoidCall {
        name: name.to_string(),
        args,
    }
}

/// A constant expression.
pub fn constant() -> Expression {
    Expression::Int(0)
}

/// A variable.
pub fn variable(name: &str) -> Expression {
    Expression::Variable(name.to_string())
}

/// A divert target as a value.
pub fn target(name: &str) -> Expression {
    Expression::DivertTarget(name.to_string())
}

/// A negation.
pub fn negate(value: Expression) -> Expression {
    Expression::Negate(Box::new(value))
}

/// A called function.
pub fn call(name: &str, args: Vec<Expression>) -> Expression {
    Expression::FunctionCall {
        name: name.to_string(),
        args,
    }
}

/// A sum.
pub fn binary(left: Expression, right: Expression) -> Expression {
    Expression::Binary {
        left: Box::new(left),
        operator: BinaryOperator::Add,
        right: Box::new(right),
    }
}

/// A story of root nodes and flows.
pub fn story(root: Vec<Node>, flows: Vec<Flow>) -> ParsedStory {
    ParsedStory::new(Vec::new(), root, flows)
}

/// A global.
pub fn global(name: &str) -> GlobalVariable {
    GlobalVariable {
        name: name.to_string(),
        initial_value: constant(),
    }
}

/// A knot or stitch.
pub fn knot(name: &str, nodes: Vec<Node>) -> Flow {
    Flow {
        name: name.to_string(),
        is_function: false,
        parameters: Vec::new(),
        ref_parameters: Vec::new(),
        divert_parameters: Vec::new(),
        nodes,
        children: Vec::new(),
    }
}

/// A function.
pub fn function(name: &str, nodes: Vec<Node>) -> Flow {
    Flow {
        is_function: true,
        ..knot(name, nodes)
    }
}

impl ParsedStory {
    /// The story with these globals too.
    pub fn with_globals(mut self, names: &[&str]) -> Self {
        self.globals.extend(names.iter().map(|name| global(name)));
        self
    }

    /// The story with these externals too.
    pub fn with_externals(mut self, names: &[&str]) -> Self {
        let names = names.iter().map(|name| name.to_string());
        self.external_functions.extend(names);
        self
    }
}

impl Flow {
    /// The flow with these parameters too.
    pub fn with_parameters(mut self, names: &[&str]) -> Self {
        self.parameters
            .extend(names.iter().map(|name| name.to_string()));
        self
    }

    /// The flow with these divert parameters too.
    pub fn with_marks(mut self, names: &[&str]) -> Self {
        self.divert_parameters
            .extend(names.iter().map(|name| name.to_string()));
        self
    }

    /// The flow with these stitches too.
    pub fn with_stitches(mut self, stitches: Vec<Flow>) -> Self {
        self.children.extend(stitches);
        self
    }
}

/// The lists directly inside a node.
pub fn lists_mut(node: &mut Node) -> Vec<&mut Vec<Node>> {
    match node {
        Node::Choice(choice) => vec![&mut choice.body],
        Node::Conditional {
            when_true,
            when_false,
            ..
        } => std::iter::once(when_true).chain(when_false).collect(),
        Node::SwitchConditional { branches, .. } => {
            branches.iter_mut().map(|(_, body)| body).collect()
        }
        Node::Sequence(sequence) => sequence.branches.iter_mut().collect(),
        _ => Vec::new(),
    }
}

/// Visits every node of a list at all depths.
pub fn nodes_mut(list: &mut [Node], visit: &mut impl FnMut(&mut Node)) {
    for node in list {
        visit(node);
        for inner in lists_mut(node) {
            nodes_mut(inner, visit);
        }
    }
}

/// Visits every name of a story.
pub fn names_mut(story: &mut ParsedStory, visit: &mut impl FnMut(&mut String)) {
    for global in &mut story.globals {
        visit(&mut global.name);
    }
    story.external_functions.iter_mut().for_each(&mut *visit);
    body_names_mut(&mut story.root, visit);
    for flow in &mut story.flows {
        flow_names_mut(flow, visit);
        for stitch in &mut flow.children {
            flow_names_mut(stitch, visit);
        }
    }
}

/// Visits the names of a flow or stitch, not those of its children.
fn flow_names_mut(flow: &mut Flow, visit: &mut impl FnMut(&mut String)) {
    visit(&mut flow.name);
    flow.parameters.iter_mut().for_each(&mut *visit);
    flow.divert_parameters.iter_mut().for_each(&mut *visit);
    body_names_mut(&mut flow.nodes, visit);
}

/// Visits the names in a body.
fn body_names_mut(list: &mut [Node], visit: &mut impl FnMut(&mut String)) {
    nodes_mut(list, &mut |node| node_names_mut(node, visit));
}

/// Visits the names directly in a node and in its expressions.
fn node_names_mut(node: &mut Node, visit: &mut impl FnMut(&mut String)) {
    match node {
        Node::Divert(Divert { target, arguments })
        | Node::ThreadDivert(Divert { target, arguments }) => {
            call_names_mut(target, arguments, visit)
        }
        Node::TunnelDivert { target, args, .. }
        | Node::TunnelOnwardsWithTarget { target, args }
        | Node::VoidCall { name: target, args } => call_names_mut(target, args, visit),
        Node::OutputExpression(value) | Node::ReturnExpr(value) => {
            expression_names_mut(value, visit)
        }
        Node::Conditional { condition, .. } => condition_names_mut(condition, visit),
        Node::SwitchConditional { value, branches } => {
            expression_names_mut(value, visit);
            let cases = branches.iter_mut().filter_map(|(case, _)| case.as_mut());
            cases.for_each(|case| expression_names_mut(case, visit));
        }
        Node::Assignment {
            variable_name,
            expression,
            ..
        } => {
            visit(variable_name);
            expression_names_mut(expression, visit);
        }
        Node::Choice(choice) => {
            choice.label.iter_mut().for_each(&mut *visit);
            let conditions = choice.conditions.iter_mut();
            conditions.for_each(|one| condition_names_mut(one, visit));
        }
        Node::GatherLabel { label, .. } => visit(label),
        _ => {}
    }
}

/// Visits a name and those of its arguments.
fn call_names_mut(
    name: &mut String,
    arguments: &mut [Expression],
    visit: &mut impl FnMut(&mut String),
) {
    visit(name);
    for argument in arguments {
        expression_names_mut(argument, visit);
    }
}

/// Visits the names in a condition.
fn condition_names_mut(condition: &mut Condition, visit: &mut impl FnMut(&mut String)) {
    match condition {
        Condition::Bool(_) => {}
        Condition::FunctionCall(name) => visit(name),
        Condition::Expression(value) => expression_names_mut(value, visit),
    }
}

/// Visits the names in an expression.
fn expression_names_mut(value: &mut Expression, visit: &mut impl FnMut(&mut String)) {
    match value {
        Expression::Variable(name) | Expression::DivertTarget(name) => visit(name),
        Expression::Negate(one) | Expression::Not(one) => expression_names_mut(one, visit),
        Expression::FunctionCall { name, args } => call_names_mut(name, args, visit),
        Expression::Binary { left, right, .. } => {
            expression_names_mut(left, visit);
            expression_names_mut(right, visit);
        }
        _ => {}
    }
}
