//! The scope paper's examples: those to be proved, those to be run, the plausible and false ones.

use super::Expected::{Accepted, Breach};
use super::{LONGEST_INPUT, Shelf, Vector};
use crate::limits::{NESTINGS, file_of_length, nested, placed};
use crate::story::{
    choice, conditional, divert, function, gather, jump, knot, onwards, output, story, temp,
    variable,
};

/// P1 to P10.
pub fn proved() -> Vec<Vector> {
    let mut shelf = Shelf::of("01, proved examples");
    first_five(&mut shelf);
    stitch_targets(&mut shelf);
    function_bodies(&mut shelf);
    labels_and_choices(&mut shelf);
    knot_temps(&mut shelf);
    shelf.vectors
}

/// P1 to P5.
fn first_five(shelf: &mut Shelf) {
    shelf.story("p1-empty", story(vec![], vec![]), Accepted);
    let to_x = || story(vec![divert("x")], vec![]);
    shelf.story("p2-target-not-found", to_x(), Breach(2, 2));
    let global = to_x().with_globals(&["x"]);
    shelf.story("p3-target-is-global", global, Accepted);
    for (name, target) in [("empty", ""), ("arrow", "->"), ("dollar", "$x")] {
        let story = story(vec![divert(target)], vec![]);
        shelf.story(&format!("p4-target-{name}"), story, Accepted);
    }
    let all = vec![divert(""), divert("->"), divert("$x")];
    shelf.story("p4-all-three", story(all, vec![]), Accepted);
    let to_f = story(vec![divert("f")], vec![function("f", vec![])]).with_globals(&["f"]);
    shelf.story("p5-function-and-global", to_f, Breach(1, 2));
}

/// P6.
fn stitch_targets(shelf: &mut Shelf) {
    let to = |target: &str| {
        let flow = knot("k", vec![]).with_stitches(vec![knot("s", vec![])]);
        story(vec![divert(target)], vec![flow])
    };
    shelf.story("p6-short-name", to("s"), Accepted);
    shelf.story("p6-qualified", to("k.s"), Accepted);
    shelf.story("p6-leading-dot", to(".s"), Breach(2, 2));
}

/// P7.
fn function_bodies(shelf: &mut Shelf) {
    let with = |node| story(vec![], vec![function("f", vec![node]), knot("k", vec![])]);
    shelf.story("p7-divert-to-end", with(divert("END")), Accepted);
    shelf.story("p7-divert-to-knot", with(divert("k")), Breach(14, 5));
    shelf.story("p7-thread-to-knot", with(jump(5, "k", vec![])), Accepted);
}

/// P8 and P9.
fn labels_and_choices(shelf: &mut Shelf) {
    let labelled = || choice(Some("a"), vec![]);
    let choices = story(vec![labelled(), labelled()], vec![]);
    shelf.story("p8-two-choices", choices, Accepted);
    let gathers = story(vec![gather("a"), gather("a")], vec![]);
    shelf.story("p8-two-gathers", gathers, Breach(10, 20));
    let undiverted = || conditional(vec![choice(None, vec![])], None);
    let in_knot = story(vec![], vec![knot("k", vec![undiverted()])]);
    shelf.story("p9-in-knot", in_knot, Breach(11, 10));
    let stitch = knot("s", vec![undiverted()]);
    let in_stitch = story(vec![], vec![knot("k", vec![]).with_stitches(vec![stitch])]);
    shelf.story("p9-in-stitch", in_stitch, Accepted);
}

/// P10.
fn knot_temps(shelf: &mut Shelf) {
    let with = |nodes| {
        let flow = knot("k", vec![temp("t")]).with_stitches(vec![knot("s", nodes)]);
        story(vec![], vec![flow])
    };
    let print = || output(variable("t"));
    shelf.story("p10-knot-temp", with(vec![print()]), Breach(15, 17));
    let own = with(vec![temp("t"), print()]);
    shelf.story("p10-own-temp", own, Accepted);
    let later = with(vec![print(), temp("t")]);
    shelf.story("p10-own-temp-later", later, Accepted);
}

/// Depth 64 and 65, the shortest and the program's longest file, root gathers and a bad divert.
pub fn run() -> Vec<Vector> {
    let mut shelf = Shelf::of("01, run examples");
    for way in 0..NESTINGS {
        for (depth, expected) in [(64, Accepted), (65, super::Expected::Refused(6))] {
            let file = placed(way % 3, &nested(way, depth));
            shelf.bytes(&format!("depth-{depth}-nesting-{way}"), file, expected);
        }
    }
    let longest = file_of_length(LONGEST_INPUT);
    shelf.bytes("program-longest-input", longest, Accepted);
    let gathers = vec![gather("a"), gather("a")];
    let bad = story(gathers, vec![knot("k", vec![divert("x")])]);
    shelf.story("root-gathers-and-bad-divert", bad, Breach(2, 8));
    shelf.vectors
}

/// What a reader of the rules might take for right.
pub fn plausible_and_false() -> Vec<Vector> {
    let mut shelf = Shelf::of("01, plausible and false");
    let choice_labels = vec![choice(Some("a"), vec![]), gather("a")];
    shelf.story(
        "choice-label-counts-in-rule-10",
        story(choice_labels, vec![]),
        Accepted,
    );
    let onwards_target = story(vec![onwards("nowhere")], vec![]);
    shelf.story("kind-7-target-is-checked", onwards_target, Accepted);
    let onwards_function = story(vec![onwards("f")], vec![function("f", vec![])]);
    shelf.story("kind-7-function-is-checked", onwards_function, Accepted);
    let stitch = knot("s", vec![conditional(vec![choice(None, vec![])], None)]);
    let undiverted = story(vec![], vec![knot("k", vec![]).with_stitches(vec![stitch])]);
    shelf.story("step-10-runs-on-stitches", undiverted, Accepted);
    let found = story(vec![divert("f")], vec![function("f", vec![])]).with_globals(&["a.f"]);
    shelf.story("target-is-found-before-function-test", found, Breach(1, 2));
    let gathers = vec![gather("a"), conditional(vec![gather("a")], None)];
    let scoped = story(gathers, vec![]);
    shelf.story(
        "gathers-in-lists-have-their-own-scope",
        scoped,
        Breach(10, 20),
    );
    let apart = knot("k", vec![gather("a")]).with_stitches(vec![knot("s", vec![gather("a")])]);
    shelf.story(
        "gathers-of-knot-and-stitch-clash",
        story(vec![gather("a")], vec![apart]),
        Accepted,
    );
    shelf.vectors
}
