//! Each rule in each step, each kind of record that a step visits or leaves out, each scope.

use super::Expected::{Accepted, Breach};
use super::{Shelf, Vector};
use crate::ast::{AssignMode, Condition, Expression, Flow, Node, ParsedStory};
use crate::story::{
    assign, binary, call, choice, conditional, conditional_choice, constant, divert, function,
    gather, jump, knot, negate, onwards, output, sequence, story, switch, target, temp, variable,
    void_call,
};

/// A story with nodes in the root, in knot k or in stitch k.s, and a function f.
fn placed(body: &str, nodes: Vec<Node>) -> ParsedStory {
    let flows = |own, stitches| {
        let flow = knot("k", own).with_stitches(stitches);
        vec![flow, function("f", vec![])]
    };
    match body {
        "root" => story(nodes, flows(vec![], vec![])),
        "knot" => story(vec![], flows(nodes, vec![])),
        _ => story(vec![], flows(vec![], vec![knot("s", nodes)])),
    }
}

/// A story of one flow that has one stitch.
fn flow_and_stitch(flow: Flow, stitch: Flow) -> ParsedStory {
    story(vec![], vec![flow.with_stitches(vec![stitch])])
}

/// Every rule with every step in which it can stand.
pub fn pairs() -> Vec<Vector> {
    let mut shelf = Shelf::of("01, steps and their rules");
    body_pairs(&mut shelf);
    temp_pairs(&mut shelf);
    head_pairs(&mut shelf);
    variable_divert_pairs(&mut shelf);
    shelf.vectors
}

/// Rules 1, 2, 3, 4, 10 and 11.
fn body_pairs(shelf: &mut Shelf) {
    let bodies = [
        ("root", [1, 2, 3, 20]),
        ("knot", [7, 8, 9, 19]),
        ("stitch", [13, 14, 15, 18]),
    ];
    for (body, [temps, targets, calls, gathers]) in bodies {
        let faults = [
            (4, temps, vec![temp("f")]),
            (1, targets, vec![divert("f")]),
            (2, targets, vec![divert("x")]),
            (3, calls, vec![void_call("k", vec![])]),
            (10, gathers, vec![gather("a"), gather("a")]),
        ];
        for (rule, step, nodes) in faults {
            let name = format!("rule-{rule}-step-{step}");
            shelf.story(&name, placed(body, nodes), Breach(rule, step));
        }
    }
    for (body, step) in [("root", 4), ("knot", 10)] {
        let nodes = vec![conditional(vec![choice(None, vec![])], None)];
        let name = format!("rule-11-step-{step}");
        shelf.story(&name, placed(body, nodes), Breach(11, step));
    }
}

/// Rules 6 and 7.
fn temp_pairs(shelf: &mut Shelf) {
    let own = || vec![temp("p")];
    let labelled = || vec![temp("a"), gather("a")];
    let root = story(labelled(), vec![]);
    shelf.story("rule-7-step-1", root, Breach(7, 1));
    let flow = knot("k", own()).with_parameters(&["p"]);
    shelf.story("rule-6-step-7", story(vec![], vec![flow]), Breach(6, 7));
    let flow = knot("k", labelled());
    shelf.story("rule-7-step-7", story(vec![], vec![flow]), Breach(7, 7));
    let stitch = knot("s", own()).with_parameters(&["p"]);
    let story = |stitch| flow_and_stitch(knot("k", vec![]), stitch);
    shelf.story("rule-6-step-13", story(stitch), Breach(6, 13));
    let stitch = knot("s", labelled());
    shelf.story("rule-7-step-13", story(stitch), Breach(7, 13));
}

/// Rules 4, 5, 12, 13, 14 and 15.
fn head_pairs(shelf: &mut Shelf) {
    let f = |nodes| story(vec![], vec![function("f", nodes)]);
    let stitches = flow_and_stitch(function("f", vec![]), knot("s", vec![]));
    shelf.story("rule-12-step-5", stitches, Breach(12, 5));
    shelf.story(
        "rule-13-step-5",
        f(vec![choice(None, vec![])]),
        Breach(13, 5),
    );
    shelf.story("rule-14-step-5", f(vec![divert("x")]), Breach(14, 5));
    let flow = function("f", vec![]).with_parameters(&["f"]);
    shelf.story("rule-4-step-6", story(vec![], vec![flow]), Breach(4, 6));
    let flow = knot("k", vec![]).with_parameters(&["g"]);
    let global = story(vec![], vec![flow]).with_globals(&["g"]);
    shelf.story("rule-5-step-6", global, Breach(5, 6));
    let global = flow_and_stitch(knot("k", vec![]), knot("g", vec![])).with_globals(&["g"]);
    shelf.story("rule-5-step-12", global, Breach(5, 12));
    let stitch = knot("s", vec![output(variable("t"))]);
    let hidden = flow_and_stitch(knot("k", vec![temp("t")]), stitch);
    shelf.story("rule-15-step-17", hidden, Breach(15, 17));
}

/// Rules 8 and 9.
fn variable_divert_pairs(shelf: &mut Shelf) {
    let unmarked = |name| knot(name, vec![divert("p")]).with_parameters(&["p"]);
    let twice = |name| {
        let nodes = vec![jump(3, "END", vec![target("p")])];
        knot(name, nodes).with_marks(&["p"])
    };
    let flow = |flow| story(vec![], vec![flow]);
    shelf.story("rule-8-step-11", flow(unmarked("k")), Breach(8, 11));
    shelf.story("rule-9-step-11", flow(twice("k")), Breach(9, 11));
    let stitch = |stitch| flow_and_stitch(knot("k", vec![]), stitch);
    shelf.story("rule-8-step-16", stitch(unmarked("s")), Breach(8, 16));
    shelf.story("rule-9-step-16", stitch(twice("s")), Breach(9, 16));
}

/// The nodes in which expressions are visited, around one expression.
fn visiting(value: &Expression) -> Vec<(&'static str, Node)> {
    let condition = || Condition::Expression(value.clone());
    let none = || (None, vec![]);
    vec![
        ("output", output(value.clone())),
        (
            "conditional",
            Node::Conditional {
                condition: condition(),
                when_true: vec![],
                when_false: None,
            },
        ),
        (
            "switch-value",
            Node::SwitchConditional {
                value: value.clone(),
                branches: vec![none()],
            },
        ),
        (
            "switch-case",
            Node::SwitchConditional {
                value: constant(),
                branches: vec![none(), (Some(value.clone()), vec![])],
            },
        ),
        ("return", Node::ReturnExpr(value.clone())),
        ("assignment", assigned(value.clone())),
        (
            "choice-condition",
            conditional_choice(None, vec![Condition::Bool(true), condition()], vec![]),
        ),
        ("void-call", void_call("q", vec![constant(), value.clone()])),
    ]
}

/// The expressions in which expressions are visited, around one expression.
fn visiting_inside(value: &Expression) -> Vec<(&'static str, Node)> {
    vec![
        ("in-negate", output(negate(value.clone()))),
        ("in-not", output(Expression::Not(Box::new(value.clone())))),
        ("in-binary-left", output(binary(value.clone(), constant()))),
        ("in-binary-right", output(binary(constant(), value.clone()))),
        (
            "in-call",
            output(call("q", vec![constant(), value.clone()])),
        ),
    ]
}

/// An assignment of an expression.
fn assigned(expression: Expression) -> Node {
    Node::Assignment {
        variable_name: "v".to_string(),
        expression,
        mode: AssignMode::Set,
    }
}

/// The nodes whose arguments no step visits, around one expression.
fn unvisited(value: &Expression) -> Vec<(&'static str, Node)> {
    let arguments = || vec![value.clone(), negate(value.clone())];
    vec![
        ("divert-argument", jump(3, "END", arguments())),
        ("tunnel-argument", jump(4, "END", arguments())),
        ("thread-argument", jump(5, "END", arguments())),
        (
            "onwards-argument",
            Node::TunnelOnwardsWithTarget {
                target: "END".to_string(),
                args: arguments(),
            },
        ),
    ]
}

/// Where calls are looked for.
pub fn visited_calls() -> Vec<Vector> {
    let mut shelf = Shelf::of("01, calls: kinds 2, 8, 9, 12, 13, 14, 16");
    let value = call("k", vec![]);
    for (place, node) in [visiting(&value), visiting_inside(&value)].concat() {
        let name = format!("call-{place}");
        shelf.story(&name, placed("knot", vec![node]), Breach(3, 9));
    }
    for (place, node) in unvisited(&value) {
        let name = format!("call-{place}");
        shelf.story(&name, placed("knot", vec![node]), Accepted);
    }
    let condition = || Condition::FunctionCall("k".to_string());
    let test = Node::Conditional {
        condition: condition(),
        when_true: vec![],
        when_false: None,
    };
    shelf.story("call-condition", placed("knot", vec![test]), Breach(3, 9));
    let test = conditional_choice(None, vec![condition()], vec![]);
    let story = placed("knot", vec![test]);
    shelf.story("call-choice-condition-name", story, Breach(3, 9));
    let inner = void_call("q", vec![negate(call("r", vec![call("k", vec![])]))]);
    shelf.story(
        "call-deep-in-call",
        placed("root", vec![inner]),
        Breach(3, 3),
    );
    shelf.vectors
}

/// Where forbidden variables are looked for.
pub fn visited_variables() -> Vec<Vector> {
    let mut shelf = Shelf::of("01, step 17: the kinds and expressions of calls");
    let with = |node| {
        let flow = knot("k", vec![]).with_parameters(&["t"]);
        flow_and_stitch(flow, knot("s", vec![node]))
    };
    let value = variable("t");
    for (place, node) in [visiting(&value), visiting_inside(&value)].concat() {
        let name = format!("variable-{place}");
        shelf.story(&name, with(node), Breach(15, 17));
    }
    for (place, node) in unvisited(&value) {
        shelf.story(&format!("variable-{place}"), with(node), Accepted);
    }
    let named = [
        ("target-of-divert-value", output(target("t"))),
        ("called-name", output(call("t", vec![]))),
        ("assigned-name", assign(AssignMode::Set, "t")),
        ("added-name", assign(AssignMode::AddAssign, "t")),
        ("subtracted-name", assign(AssignMode::SubtractAssign, "t")),
    ];
    for (place, node) in named {
        shelf.story(&format!("variable-{place}"), with(node), Accepted);
    }
    shelf.vectors
}

/// Nodes that are made anew for each list.
type Nodes = fn() -> Vec<Node>;

/// Every list inside a node is gone into by every step.
pub fn visited_lists() -> Vec<Vector> {
    let mut shelf =
        Shelf::of("01, every step goes into choices, conditionals, switches, sequences");
    let faults: [(&str, u8, u8, Nodes); 6] = [
        ("temp", 4, 7, || vec![temp("f")]),
        ("target", 2, 8, || vec![divert("x")]),
        ("call", 3, 9, || vec![void_call("k", vec![])]),
        ("choice", 11, 10, || {
            vec![conditional(vec![choice(None, vec![])], None)]
        }),
        ("argument", 9, 11, || {
            vec![jump(4, "END", vec![target("m")])]
        }),
        ("gathers", 10, 19, || vec![gather("a"), gather("a")]),
    ];
    for (what, rule, step, fault) in faults {
        for (list, node) in lists(fault) {
            let flow = knot("k", vec![node]).with_marks(&["m"]);
            let story = story(vec![], vec![flow, function("f", vec![])]);
            shelf.story(&format!("{what}-in-{list}"), story, Breach(rule, step));
        }
    }
    shelf.vectors
}

/// Each kind of list around some nodes; a choice in it leaves.
fn lists(nodes: Nodes) -> Vec<(&'static str, Node)> {
    vec![
        ("choice", choice(None, nodes())),
        ("first-branch", conditional(nodes(), None)),
        ("second-branch", conditional(vec![], Some(nodes()))),
        ("switch", switch(vec![vec![], nodes()])),
        ("sequence", sequence(vec![vec![], nodes()])),
    ]
}

/// The last node of a choice's body in a branch, by kind.
pub fn leaving() -> Vec<Vector> {
    let mut shelf = Shelf::of("01, rule 11: kinds 3, 6, 7, 11, 12 leave");
    let last = [
        (0, Node::Glue),
        (1, Node::Newline),
        (2, output(constant())),
        (3, divert("END")),
        (4, jump(4, "END", vec![])),
        (5, jump(5, "END", vec![])),
        (6, Node::TunnelReturn),
        (7, onwards("END")),
        (8, conditional(vec![divert("END")], None)),
        (9, switch(vec![vec![divert("END")]])),
        (10, sequence(vec![vec![divert("END")]])),
        (11, Node::ReturnBool(true)),
        (12, Node::ReturnExpr(constant())),
        (13, temp("t")),
        (14, choice(None, vec![divert("END")])),
        (15, gather("a")),
        (16, void_call("q", vec![])),
    ];
    for (kind, node) in last {
        let expected = match kind {
            3 | 6 | 7 | 11 | 12 => Accepted,
            _ => Breach(11, 4),
        };
        let root = vec![conditional(vec![choice(None, vec![node])], None)];
        let name = format!("choice-ends-with-kind-{kind}");
        shelf.story(&name, story(root, vec![]), expected);
    }
    around_leaving(&mut shelf);
    shelf.vectors
}

/// Newlines behind the last node, other lists, and choices that are not directly in a branch.
fn around_leaving(shelf: &mut Shelf) {
    let root = |node| story(vec![node], vec![]);
    let ends = vec![divert("END"), Node::Newline, Node::Newline];
    let node = conditional(vec![choice(None, ends)], None);
    shelf.story("choice-ends-with-newlines", root(node), Accepted);
    let ends = vec![divert("END"), Node::Glue, Node::Newline];
    let node = conditional(vec![], Some(vec![choice(None, ends)]));
    shelf.story("choice-ends-with-text", root(node), Breach(11, 4));
    let node = switch(vec![vec![], vec![Node::Newline, choice(None, vec![])]]);
    shelf.story("undiverted-in-switch", root(node), Breach(11, 4));
    let node = sequence(vec![vec![choice(None, vec![])]]);
    shelf.story("undiverted-in-sequence", root(node), Accepted);
    let node = conditional(vec![sequence(vec![vec![choice(None, vec![])]])], None);
    shelf.story("undiverted-in-sequence-in-branch", root(node), Accepted);
    let inner = choice(None, vec![]);
    let node = conditional(vec![choice(None, vec![inner, divert("END")])], None);
    shelf.story("undiverted-in-choice-in-branch", root(node), Accepted);
    let deep = conditional(vec![choice(None, vec![])], None);
    let node = conditional(vec![deep], Some(vec![choice(None, vec![])]));
    shelf.story("first-choice-in-file-order", root(node), Breach(11, 4));
}

/// Which labels, parameters, marks and temps count where.
pub fn scopes() -> Vec<Vector> {
    let mut shelf = Shelf::of("01, labels for temps, own parameters, forbidden in a stitch");
    label_scopes(&mut shelf);
    parameter_scopes(&mut shelf);
    forbidden_scopes(&mut shelf);
    shelf.vectors
}

/// A temp faces the labels of the root, or of its knot and all its stitches.
fn label_scopes(shelf: &mut Shelf) {
    let two = |own, first, second| {
        let stitches = vec![knot("s", first), knot("r", second)];
        let flow = knot("k", own).with_stitches(stitches);
        story(vec![], vec![flow])
    };
    let label = || vec![gather("a")];
    let own = || vec![temp("a")];
    let from_stitch = two(own(), vec![], label());
    shelf.story("knot-temp-stitch-label", from_stitch, Breach(7, 7));
    let from_knot = two(label(), own(), vec![]);
    shelf.story("stitch-temp-knot-label", from_knot, Breach(7, 13));
    let from_sibling = two(vec![], own(), vec![choice(Some("a"), vec![])]);
    shelf.story("stitch-temp-sibling-label", from_sibling, Breach(7, 13));
    let knot_label = story(own(), vec![knot("k", label())]);
    shelf.story("root-temp-knot-label", knot_label, Accepted);
    let root_label = story(label(), vec![knot("k", own())]);
    shelf.story("knot-temp-root-label", root_label, Accepted);
    let spelled = story(vec![temp("k.a")], vec![knot("k", label())]);
    shelf.story("temp-is-a-spelling", spelled, Accepted);
}

/// Parameters and marks are those of the same flow or stitch.
fn parameter_scopes(shelf: &mut Shelf) {
    let flow = || knot("k", vec![]).with_parameters(&["p"]);
    let with = |nodes| flow_and_stitch(flow(), knot("s", nodes));
    shelf.story(
        "stitch-temp-knot-parameter",
        with(vec![temp("p")]),
        Accepted,
    );
    shelf.story(
        "stitch-divert-knot-parameter",
        with(vec![divert("p")]),
        Accepted,
    );
    let root = story(vec![divert("p")], vec![flow()]);
    shelf.story("root-divert-to-parameter", root, Accepted);
    let marked = knot("k", vec![divert("p")])
        .with_parameters(&["p"])
        .with_marks(&["p"]);
    shelf.story("marked-parameter", story(vec![], vec![marked]), Accepted);
    let mark_only = knot("k", vec![divert("p")]).with_marks(&["p"]);
    shelf.story("mark-only", story(vec![], vec![mark_only]), Breach(2, 8));
    let mark_clash = knot("k", vec![temp("p")]).with_marks(&["p"]);
    let clash = story(vec![], vec![mark_clash]).with_globals(&["p"]);
    shelf.story("mark-clashes-with-nothing", clash, Accepted);
    arguments_and_reserved(shelf);
}

/// Arguments that are not directly a target of kinds 3, 4, 5, and parameters with reserved names.
fn arguments_and_reserved(shelf: &mut Shelf) {
    let inner = knot("k", vec![jump(3, "END", vec![negate(target("p"))])]).with_marks(&["p"]);
    shelf.story("argument-not-direct", story(vec![], vec![inner]), Accepted);
    let by_name = knot("k", vec![jump(3, "END", vec![variable("p")])]).with_marks(&["p"]);
    shelf.story(
        "argument-is-variable",
        story(vec![], vec![by_name]),
        Accepted,
    );
    let onwards = Node::TunnelOnwardsWithTarget {
        target: "END".to_string(),
        args: vec![target("p")],
    };
    let flow = knot("k", vec![onwards]).with_marks(&["p"]);
    shelf.story("argument-of-onwards", story(vec![], vec![flow]), Accepted);
    let stitch = knot("g", vec![]).with_parameters(&["g"]);
    let clash = flow_and_stitch(knot("k", vec![]), stitch);
    shelf.story("stitch-parameter-clashes-with-nothing", clash, Accepted);
    for (name, target) in [
        ("empty", ""),
        ("arrow", "->"),
        ("dollar", "$x"),
        ("end", "END"),
    ] {
        let flow = knot("k", vec![divert(target)]).with_parameters(&[target]);
        let name = format!("rule-8-exempts-nothing-{name}");
        shelf.story(&name, story(vec![], vec![flow]), Breach(8, 11));
    }
}

/// What a stitch may not name.
fn forbidden_scopes(shelf: &mut Shelf) {
    let print = || vec![output(variable("t"))];
    let knot_parameter = knot("k", vec![]).with_parameters(&["t"]);
    let own = knot("s", print()).with_parameters(&["t"]);
    let story_of = flow_and_stitch(knot_parameter, own);
    shelf.story("own-parameter-frees", story_of, Accepted);
    let flow = knot("k", vec![assign(AssignMode::Set, "t")]);
    let story_of = flow_and_stitch(flow, knot("s", print()));
    shelf.story("set-name-is-not-forbidden", story_of, Accepted);
    let sibling = vec![knot("s", vec![temp("t")]), knot("r", print())];
    let story_of = story(vec![], vec![knot("k", vec![]).with_stitches(sibling)]);
    shelf.story("sibling-temp-is-not-forbidden", story_of, Accepted);
    let global = flow_and_stitch(knot("k", vec![temp("t")]), knot("s", print()));
    let global = global.with_globals(&["t"]);
    shelf.story("global-does-not-free", global, Breach(15, 17));
    let deep = conditional(vec![choice(None, vec![temp("t")])], None);
    let deep = flow_and_stitch(
        knot("k", vec![temp("t")]),
        knot("s", vec![output(variable("t")), sequence(vec![vec![deep]])]),
    );
    shelf.story("own-temp-at-depth-frees", deep, Accepted);
}
