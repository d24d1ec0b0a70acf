//! Targets, called names and the comparison of names.

use super::Expected::{Accepted, Breach, Refused};
use super::{Expected, Shelf, Vector};
use crate::ast::{Flow, Node, ParsedStory};
use crate::generate::BUILTINS;
use crate::layout::{file, name, record};
use crate::limits::long_name;
use crate::story::{
    call, choice, conditional, divert, function, gather, knot, output, sequence, story, temp,
    void_call,
};

/// A story with names of every sort and one divert in the root.
fn to(target: &str) -> ParsedStory {
    let root = vec![
        divert(target),
        gather("rg"),
        sequence(vec![vec![choice(Some("rc"), vec![gather("deep")])]]),
        temp("rt"),
    ];
    let stitch = knot("s", vec![gather("sg")]).with_parameters(&["sp"]);
    let own = vec![
        conditional(vec![choice(Some("kc"), vec![divert("END")])], None),
        temp("kt"),
    ];
    let own = vec![sequence(vec![own]), gather("kg")];
    let flow = knot("hall", own)
        .with_parameters(&["kp"])
        .with_marks(&["km"])
        .with_stitches(vec![stitch]);
    let nameless =
        knot("", vec![gather("ng")]).with_stitches(vec![knot("ns", vec![gather("nsg")])]);
    let flows = vec![function("f", vec![gather("fg")]), nameless, flow];
    let story = story(root, flows).with_globals(&["g", "p.q.r"]);
    story.with_externals(&["ext"])
}

/// Targets that this story has, by their spelling or its end.
const FOUND: [&str; 32] = [
    "",
    "->",
    "$",
    "$hall",
    "END",
    "DONE",
    "->->",
    "g",
    "p.q.r",
    "q.r",
    "r",
    "rg",
    "rc",
    "deep",
    "hall",
    "s",
    "hall.s",
    "sg",
    "s.sg",
    "hall.s.sg",
    "kp",
    "sp",
    "hall.kg",
    "kg",
    "fg",
    "f.fg",
    "ng",
    "ns",
    ".ns",
    "nsg",
    "ns.nsg",
    ".ns.nsg",
];

/// Targets that it lacks.
const MISSING: [&str; 28] = [
    "x", "all", "hal", "halls", "hall.", ".hall", "hall.sg", "l.s", ".s", "kc.", "km", "kt", "rt",
    "ext", "RANDOM", "end", "-", "->x", " END", "END.", ".END", "q", "p", ".", "..", ".ng",
    "hall.ng", "Hall",
];

/// Targets that are found, by their spelling or its end, and targets that are not.
pub fn targets() -> Vec<Vector> {
    let mut shelf = Shelf::of("01, third stop: targets");
    for target in FOUND {
        add_target(&mut shelf, "found", target, Accepted);
    }
    for target in MISSING {
        add_target(&mut shelf, "missing", target, Breach(2, 2));
    }
    add_target(&mut shelf, "function", "f", Breach(1, 2));
    function_targets(&mut shelf);
    shelf.vectors
}

/// Targets that are a function's name and something else.
fn function_targets(shelf: &mut Shelf) {
    shelf.from = "01, third stop: targets".to_string();
    let own = story(vec![divert("END")], vec![function("END", vec![])]);
    shelf.story("target-function-named-end", own, Breach(1, 2));
    let passes = story(vec![divert("$f")], vec![function("$f", vec![])]);
    shelf.story("target-function-named-dollar", passes, Accepted);
    let short = vec![function("f", vec![]), knot("k", vec![gather("f")])];
    shelf.story(
        "target-short-name-of-function",
        story(vec![divert("f")], short),
        Breach(1, 2),
    );
    let spelled = vec![function("a.b", vec![]), knot("a", vec![gather("b")])];
    shelf.story(
        "target-spelling-of-function",
        story(vec![divert("a.b")], spelled),
        Breach(1, 2),
    );
}

/// Adds one target; where it came from tells its bytes.
fn add_target(shelf: &mut Shelf, what: &str, target: &str, expected: Expected) {
    let number = shelf.vectors.len();
    let name = format!("target-{what}-{number}");
    shelf.from = format!("01, third stop: target {target:?}");
    shelf.story(&name, to(target), expected);
}

/// Called names: functions, externals, built-in words, flows and unknown names.
pub fn calls() -> Vec<Vector> {
    let mut shelf = Shelf::of("01, third stop: call names");
    let with = |flows: Vec<Flow>| story(vec![void_call("c", vec![])], flows);
    shelf.story("call-unknown", with(vec![]), Accepted);
    shelf.story("call-function", with(vec![function("c", vec![])]), Accepted);
    shelf.story("call-knot", with(vec![knot("c", vec![])]), Breach(3, 3));
    let both = with(vec![knot("c", vec![]), function("c", vec![])]);
    shelf.story("call-knot-and-function", both, Accepted);
    let external = with(vec![knot("c", vec![])]).with_externals(&["x", "c"]);
    shelf.story("call-knot-and-external", external, Accepted);
    let global = with(vec![knot("c", vec![])]).with_globals(&["c"]);
    shelf.story("call-knot-and-global", global, Breach(3, 3));
    let stitch = knot("k", vec![]).with_stitches(vec![knot("c", vec![])]);
    shelf.story("call-stitch", with(vec![stitch]), Accepted);
    let label = knot("k", vec![gather("c")]).with_parameters(&["c"]);
    shelf.story("call-label-and-parameter", with(vec![label]), Accepted);
    shelf.from = "01, third stop: the 21 words of is_builtin_function".to_string();
    for word in BUILTINS {
        let called = vec![output(call(word, vec![]))];
        let name = format!("call-builtin-{word}");
        shelf.story(&name, story(called, vec![knot(word, vec![])]), Accepted);
    }
    for word in NO_BUILTINS {
        let called = vec![output(call(word, vec![]))];
        let name = format!("call-no-builtin-{word}");
        shelf.story(&name, story(called, vec![knot(word, vec![])]), Breach(3, 3));
    }
    shelf.vectors
}

/// Words that lie near the built-in ones.
const NO_BUILTINS: [&str; 9] = [
    "random",
    "RANDO",
    "RANDOMX",
    "TURN",
    "LIST_",
    "LIST_RANGES",
    "IN",
    "INTEGER",
    "not",
];

/// Names of every length and of any bytes.
pub fn names() -> Vec<Vector> {
    let mut shelf = Shelf::of("01, names: count byte, then so many bytes");
    long_names(&mut shelf);
    let longest = story(
        vec![],
        vec![function(&long_name(), vec![divert(&long_name())])],
    );
    shelf.story("longest-message-of-two-names", longest, Breach(14, 5));
    let flow = knot("k", vec![divert(&long_name())]).with_parameters(&[&long_name()]);
    shelf.story(
        "longest-message-of-one-name",
        story(vec![], vec![flow]),
        Breach(8, 11),
    );
    for (what, target) in [
        ("utf8", "Größe"),
        ("quote", "it's '-> here'"),
        ("backslash", "a\\b"),
        ("line-end", "a\nb"),
        ("brace", "{1}"),
    ] {
        let story = story(vec![divert(target)], vec![]);
        shelf.story(&format!("text-with-{what}"), story, Breach(2, 2));
    }
    let bytes = record(3, &name(&[0xFF, 0x00, 0x80]));
    let any = file(&[], &[], &bytes, &[]);
    shelf.bytes("text-with-any-bytes", any, Breach(2, 2));
    let global = file(&name(&[0xFF, 0x00, 0x80]), &[], &bytes, &[]);
    shelf.bytes("global-of-any-bytes", global, Accepted);
    empty_names(&mut shelf);
    shelf.vectors
}

/// Two names of 255 bytes, equal or different at one end.
fn long_names(shelf: &mut Shelf) {
    let with = |target: &str| story(vec![divert(target)], vec![]).with_globals(&[&long_name()]);
    shelf.story("name-of-255-bytes", with(&long_name()), Accepted);
    let last = format!("{}m", &long_name()[1..]);
    shelf.story("name-of-255-bytes-last-differs", with(&last), Breach(2, 2));
    let first = format!("m{}", &long_name()[1..]);
    shelf.story(
        "name-of-255-bytes-first-differs",
        with(&first),
        Breach(2, 2),
    );
    shelf.story("name-of-254-bytes", with(&long_name()[1..]), Breach(2, 2));
    let dotted = format!("a.{}", &long_name()[2..]);
    let ending = story(vec![divert(&long_name()[2..])], vec![]).with_globals(&[&dotted]);
    shelf.story("ending-of-253-bytes", ending, Accepted);
    let whole = story(vec![divert(&long_name())], vec![]).with_globals(&[&dotted]);
    shelf.story("ending-as-long-as-name", whole, Breach(2, 2));
}

/// Empty names where a rule asks for them.
fn empty_names(shelf: &mut Shelf) {
    let root = |nodes: Vec<Node>, flows| story(nodes, flows);
    let temp_of_function = root(vec![temp("")], vec![function("", vec![])]);
    shelf.story("empty-temp-and-function", temp_of_function, Breach(4, 1));
    let called = root(vec![void_call("", vec![])], vec![knot("", vec![])]);
    shelf.story("empty-call-of-empty-knot", called, Breach(3, 3));
    let gathers = root(vec![gather(""), gather("")], vec![]);
    shelf.story("empty-gathers", gathers, Breach(10, 20));
    let both = knot("", vec![]).with_stitches(vec![knot("", vec![gather("")])]);
    let story = |target| root(vec![divert(target)], vec![both.clone()]);
    shelf.story("empty-flow-and-stitch-dot", story("."), Accepted);
    shelf.story("empty-flow-stitch-and-label", story(".."), Accepted);
    shelf.story("three-dots", story("..."), Breach(2, 2));
    let refused = file(&[0, 1], &[], &[], &[]);
    shelf.bytes("empty-global-then-cut-name", refused, Refused(4));
}
