//! What a writer would not expect of the original, as docs/DIFFERENCES.md tells it.

use super::Expected::{Accepted, Breach};
use super::{Shelf, Vector};
use crate::ast::{Flow, Node};
use crate::story::{
    constant, divert, function, gather, jump, knot, output, sequence, story, temp, variable,
};

/// Every gap that no other vector shows.
pub fn gaps() -> Vec<Vector> {
    let mut shelf = Shelf::of("docs/DIFFERENCES.md, what a writer would notice");
    scopes(&mut shelf);
    repeated_names(&mut shelf);
    function_bodies(&mut shelf);
    let next = knot("k", vec![temp("next"), divert("next")]);
    shelf.story(
        "gap-temp-as-target",
        story(vec![], vec![next]),
        Breach(2, 8),
    );
    shelf.vectors
}

/// A knot with one stitch s.
fn with_stitch(name: &str, own: Vec<Node>, stitch: Vec<Node>) -> Flow {
    knot(name, own).with_stitches(vec![knot("s", stitch)])
}

/// Names that are in sight everywhere or asked for nowhere.
fn scopes(shelf: &mut Shelf) {
    let flows = vec![
        with_stitch("k", vec![], vec![gather("a")]),
        knot("l", vec![divert("s"), divert("a"), divert("s.a")]),
    ];
    shelf.story(
        "gap-short-names-of-another-knot",
        story(vec![], flows),
        Accepted,
    );
    let unknown = story(vec![output(variable("nonesuch"))], vec![]);
    shelf.story("gap-unknown-variable", unknown, Accepted);
    let flows = vec![
        knot("k", vec![temp("t")]),
        knot("l", vec![output(variable("t"))]),
    ];
    shelf.story("gap-temp-of-another-knot", story(vec![], flows), Accepted);
    let root = vec![divert("k"), jump(3, "k", vec![constant(), constant()])];
    let flow = knot("k", vec![]).with_parameters(&["p"]);
    shelf.story("gap-number-of-arguments", story(root, vec![flow]), Accepted);
}

/// Names given twice.
fn repeated_names(shelf: &mut Shelf) {
    let knots = story(vec![], vec![knot("k", vec![]), knot("k", vec![])]);
    shelf.story("gap-two-knots-of-one-name", knots, Accepted);
    let stitches = vec![knot("s", vec![]), knot("s", vec![])];
    let flow = knot("k", vec![]).with_stitches(stitches);
    shelf.story(
        "gap-two-stitches-of-one-name",
        story(vec![], vec![flow]),
        Accepted,
    );
    let globals = story(vec![], vec![]).with_globals(&["g", "g"]);
    shelf.story("gap-two-globals-of-one-name", globals, Accepted);
    let global = story(vec![gather("k")], vec![knot("k", vec![])]).with_globals(&["k"]);
    shelf.story("gap-knot-global-and-label", global, Accepted);
    let global = story(vec![temp("g")], vec![]).with_globals(&["g"]);
    shelf.story("gap-temp-and-global", global, Accepted);
    let stitch = knot("s", vec![]).with_parameters(&["g", "f"]);
    let flow = knot("k", vec![]).with_stitches(vec![stitch]);
    let story = story(vec![], vec![flow, function("f", vec![])]).with_globals(&["g"]);
    shelf.story("gap-stitch-parameters", story, Accepted);
}

/// What a function may hold.
fn function_bodies(shelf: &mut Shelf) {
    let nodes = vec![
        jump(4, "k", vec![]),
        sequence(vec![vec![jump(5, "k", vec![])]]),
        divert("DONE"),
    ];
    let flows = vec![function("f", nodes), knot("k", vec![])];
    shelf.story(
        "gap-function-with-tunnel-and-thread",
        story(vec![], flows),
        Accepted,
    );
}
