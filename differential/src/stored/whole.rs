//! A story with every kind of node, expression and condition, a function, a knot with two stitches, parameters and marks.

use crate::ast::{AssignMode, Condition, Expression, Flow, Node, ParsedStory};
use crate::story::{
    assign, binary, call, choice, conditional_choice, constant, divert, function, gather, jump,
    knot, negate, onwards, output, sequence, story, target, temp, variable, void_call,
};

/// The story.
pub fn whole() -> ParsedStory {
    let nodes = [jumps(), outputs(), branches(), statements()].concat();
    story(nodes, vec![test_function(), hall()])
        .with_globals(&["g", "", "gold"])
        .with_externals(&["e", "ext"])
}

/// Diverts of every kind, with and without arguments.
fn jumps() -> Vec<Node> {
    vec![
        jump(3, "k", vec![target("k"), variable("g")]),
        jump(4, "k", vec![]),
        jump(5, "k.s", vec![constant()]),
        onwards("k"),
        Node::TunnelReturn,
    ]
}

/// Every kind of expression.
fn outputs() -> Vec<Node> {
    let not = Expression::Not(Box::new(variable("g")));
    vec![
        output(constant()),
        output(variable("g")),
        output(target("k")),
        output(negate(constant())),
        output(not),
        output(call("f", vec![constant(), variable("g")])),
        output(binary(variable("g"), constant())),
    ]
}

/// Branches of every kind, with every kind of condition.
fn branches() -> Vec<Node> {
    let test = |condition, when_true, when_false| Node::Conditional {
        condition,
        when_true,
        when_false,
    };
    let switch = Node::SwitchConditional {
        value: variable("g"),
        branches: vec![
            (Some(constant()), vec![Node::Newline]),
            (None, vec![divert("k")]),
        ],
    };
    vec![
        test(Condition::Bool(true), vec![], None),
        test(
            Condition::FunctionCall("f".to_string()),
            vec![divert("k")],
            Some(vec![Node::Newline]),
        ),
        test(
            Condition::Expression(variable("g")),
            vec![],
            Some(vec![Node::Glue, Node::Newline]),
        ),
        switch,
        sequence(vec![vec![], vec![Node::Glue], vec![Node::Newline]]),
    ]
}

/// Assignments, choices, a gather, a call and returns.
fn statements() -> Vec<Node> {
    let conditions = vec![Condition::Bool(true), Condition::Expression(constant())];
    vec![
        assign(AssignMode::Set, "g"),
        temp("t"),
        choice(None, vec![]),
        conditional_choice(Some("c"), conditions, vec![divert("k")]),
        gather("l"),
        void_call("f", vec![variable("g")]),
        Node::ReturnBool(true),
        Node::ReturnExpr(constant()),
    ]
}

/// A function with a parameter.
fn test_function() -> Flow {
    function("f", vec![Node::ReturnExpr(variable("a"))]).with_parameters(&["a"])
}

/// A knot with parameters, a mark and two stitches.
fn hall() -> Flow {
    let first = knot("s", vec![gather("m")])
        .with_parameters(&["b", ""])
        .with_marks(&["b"]);
    let second = knot("z", vec![]);
    knot("k", vec![choice(Some("d"), vec![Node::Newline])])
        .with_parameters(&["p", "q"])
        .with_marks(&["q"])
        .with_stitches(vec![first, second])
}
