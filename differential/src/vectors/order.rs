//! Stories with several breaches, and which of them is first.

use super::Expected::Breach;
use super::{Shelf, Vector};
use crate::ast::{Flow, Node, ParsedStory};
use crate::story::{
    call, choice, conditional, constant, divert, function, gather, jump, knot, output, story,
    target, temp, variable, void_call,
};

/// Every order that the steps, flows, stitches, places and rules have.
pub fn order() -> Vec<Vector> {
    let mut shelf = Shelf::of("01, order of steps");
    for (step, rule) in (1..).zip(FIRST_RULES) {
        let name = format!("all-steps-from-{step}");
        shelf.story(&name, faults_from(step), Breach(rule, step));
    }
    shelf.from = "01, flows and stitches in file order".to_string();
    flows_and_stitches(&mut shelf);
    shelf.from = "01, places and rules within a step".to_string();
    places(&mut shelf);
    rules_at_one_place(&mut shelf);
    shelf.vectors
}

/// The rule that is broken in each step of the story below.
const FIRST_RULES: [u8; 20] = [
    4, 2, 3, 11, 13, 5, 4, 2, 3, 11, 9, 5, 4, 2, 3, 9, 15, 10, 10, 10,
];

/// A story with a fault in every step from one on.
fn faults_from(first: u8) -> ParsedStory {
    let root = body_from(first, [1, 2, 3, 4, NEVER, NEVER, 20]);
    let own = body_from(first, [7, 8, 9, 10, 11, NEVER, 19]);
    let inner = body_from(first, [13, 14, 15, NEVER, 16, 17, 18]);
    let stitch = knot(if first <= 12 { "g" } else { "s" }, inner).with_marks(&["m"]);
    let flow = knot("k", [own, vec![temp("h")]].concat()).with_marks(&["m"]);
    let flow = flow.with_parameters(if first <= 6 { &["g"] } else { &[] });
    let pure = match first <= 5 {
        true => function("f", vec![choice(None, vec![])]),
        false => function("f", vec![]),
    };
    story(root, vec![pure, flow.with_stitches(vec![stitch])]).with_globals(&["g"])
}

/// The number of a step that no body has.
const NEVER: u8 = 0;

/// A body with the faults of its steps from one on, the last step's first in the file.
fn body_from(first: u8, steps: [u8; 7]) -> Vec<Node> {
    let faults = [
        vec![temp("f")],
        vec![divert("x")],
        vec![void_call("k", vec![])],
        vec![conditional(vec![choice(None, vec![])], None)],
        vec![jump(4, "END", vec![target("m")])],
        vec![output(variable("h"))],
        vec![gather("a"), gather("a")],
    ];
    let numbered = steps.into_iter().zip(faults).rev();
    let kept = numbered.filter(|(step, _)| *step != NEVER && *step >= first);
    kept.flat_map(|(_, nodes)| nodes).collect()
}

/// A breach in one flow or stitch comes before any in the next.
fn flows_and_stitches(shelf: &mut Shelf) {
    let late = || vec![gather("a"), gather("a")];
    let early = || vec![temp("f")];
    let f = || function("f", vec![]);
    let flows = vec![f(), knot("k", late()), knot("l", early())];
    shelf.story(
        "late-step-of-first-flow",
        story(vec![], flows),
        Breach(10, 19),
    );
    let flows = vec![f(), knot("l", early()), knot("k", late())];
    shelf.story(
        "early-step-of-first-flow",
        story(vec![], flows),
        Breach(4, 7),
    );
    let with = |own, stitches: Vec<Flow>| {
        let flow = knot("k", own).with_stitches(stitches);
        story(vec![], vec![f(), flow])
    };
    let stitches = vec![knot("s", late()), knot("r", early())];
    shelf.story(
        "late-step-of-first-stitch",
        with(vec![], stitches),
        Breach(10, 18),
    );
    let stitches = vec![knot("s", early())];
    shelf.story(
        "stitch-before-gathers-of-knot",
        with(late(), stitches),
        Breach(4, 13),
    );
    roots_and_knots(shelf);
}

/// The root's gathers come last, a knot's own list before its stitches.
fn roots_and_knots(shelf: &mut Shelf) {
    let late = || vec![gather("a"), gather("a")];
    let flows = vec![knot("k", late())];
    shelf.story(
        "root-gathers-come-last",
        story(late(), flows),
        Breach(10, 19),
    );
    let stitches = vec![knot("s", vec![divert("x")])];
    let own = vec![jump(4, "END", vec![target("m")])];
    let flow = knot("k", own).with_marks(&["m"]).with_stitches(stitches);
    shelf.story(
        "knot-before-its-stitch",
        story(vec![], vec![flow]),
        Breach(9, 11),
    );
}

/// Within a step the smaller place is first.
fn places(shelf: &mut Shelf) {
    let root = |nodes| story(nodes, vec![function("f", vec![]), knot("k", vec![])]);
    let two = vec![divert("x"), divert("f")];
    shelf.story("first-of-two-targets", root(two), Breach(2, 2));
    let two = vec![conditional(vec![divert("f")], None), divert("x")];
    shelf.story("inner-target-before-next", root(two), Breach(1, 2));
    let nested = call("k", vec![call("k", vec![])]);
    shelf.story(
        "outer-call-before-inner",
        root(vec![output(nested)]),
        Breach(3, 3),
    );
    let switch = Node::SwitchConditional {
        value: constant(),
        branches: vec![
            (None, vec![output(call("k", vec![]))]),
            (Some(call("k", vec![])), vec![]),
        ],
    };
    shelf.story("branch-before-next-case", root(vec![switch]), Breach(3, 3));
    places_in_flows(shelf);
}

/// Within a step of a flow the smaller place is first.
fn places_in_flows(shelf: &mut Shelf) {
    let impure = |nodes| story(vec![], vec![function("f", nodes)]);
    let nodes = vec![divert("x"), choice(None, vec![])];
    shelf.story("divert-before-choice", impure(nodes), Breach(14, 5));
    let nodes = vec![choice(None, vec![divert("x")])];
    shelf.story("choice-before-its-divert", impure(nodes), Breach(13, 5));
    let stitches = function("f", vec![divert("x")]).with_stitches(vec![knot("s", vec![])]);
    shelf.story(
        "stitches-before-divert",
        story(vec![], vec![stitches]),
        Breach(12, 5),
    );
    let node = jump(5, "p", vec![target("m"), target("m")]);
    let flow = knot("k", vec![node])
        .with_parameters(&["p"])
        .with_marks(&["m"]);
    shelf.story(
        "target-before-argument",
        story(vec![], vec![flow]),
        Breach(8, 11),
    );
    let gathers = vec![gather("b"), gather("a"), gather("b"), gather("a")];
    shelf.story(
        "first-repeated-gather",
        story(gathers, vec![]),
        Breach(10, 20),
    );
    let flow = knot("k", vec![]).with_parameters(&["p", "g", "f"]);
    let flows = vec![function("f", vec![]), flow];
    let taken = story(vec![], flows).with_globals(&["g"]);
    shelf.story("first-taken-parameter", taken, Breach(5, 6));
}

/// At one place the smaller rule is first.
fn rules_at_one_place(shelf: &mut Shelf) {
    let flow = |name: &str| knot(name, vec![temp("f"), gather("f")]).with_parameters(&["f"]);
    let own = story(vec![], vec![flow("f")]);
    shelf.story("parameter-before-label", own, Breach(6, 7));
    let stitch = knot("k", vec![]).with_stitches(vec![flow("s")]);
    let flows = vec![function("f", vec![]), stitch];
    shelf.story(
        "function-before-parameter",
        story(vec![], flows),
        Breach(4, 13),
    );
    let flow = knot("k", vec![]).with_parameters(&["f"]);
    let flows = vec![function("f", vec![]), flow];
    let both = story(vec![], flows).with_globals(&["f"]);
    shelf.story("function-before-global", both, Breach(4, 6));
}
