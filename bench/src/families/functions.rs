//! Stories of functions: parameters, temps, nested expressions and calls of one another.

use differential::ast::{Expression, Flow, Node, ParsedStory};
use differential::story::{
    binary, call, conditional, constant, divert, function, knot, output, story, variable, void_call,
};

/// Nine functions of ten flows; the tenth is a knot that calls them.
pub fn functions(flows: usize) -> ParsedStory {
    let flows = (0..flows).map(|number| match number % 10 {
        9 => caller(number),
        _ => computing(number),
    });
    story(vec![divert("END")], flows.collect()).with_globals(&["total", "seed"])
}

/// The name of a function.
fn name(number: usize) -> String {
    format!("compute_{number}")
}

/// A function that calls two others and a built-in one.
fn computing(number: usize) -> Flow {
    let earlier = |back: usize| {
        let called = number.saturating_sub(back);
        let called = if called % 10 == 9 { called - 1 } else { called };
        call(&name(called), vec![variable("left"), variable("right")])
    };
    let sum = binary(
        earlier(1),
        binary(earlier(7), call("RANDOM", vec![constant(), constant()])),
    );
    let nodes = vec![
        assignment(&format!("step_{number}"), sum),
        conditional(vec![Node::ReturnExpr(variable("left"))], None),
        Node::ReturnExpr(binary(variable("left"), variable("right"))),
    ];
    function(&name(number), nodes).with_parameters(&["left", "right"])
}

/// A temp with a value.
fn assignment(name: &str, expression: Expression) -> Node {
    Node::Assignment {
        variable_name: name.to_string(),
        expression,
        mode: differential::ast::AssignMode::TempSet,
    }
}

/// A knot that calls the nine functions before it.
fn caller(number: usize) -> Flow {
    let calls = (1..10).map(|back| {
        let arguments = vec![variable("total"), variable("seed")];
        match back % 2 {
            0 => void_call(&name(number - back), arguments),
            _ => output(call(&name(number - back), arguments)),
        }
    });
    let mut nodes: Vec<Node> = calls.collect();
    nodes.push(divert("DONE"));
    knot(&format!("caller_{number}"), nodes)
}
