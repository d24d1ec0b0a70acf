//! Targets by parts of their spellings: relative ones, shared ones, and what follows a dot inside a name.

use super::names::{after_dots, with_dots};
use super::with_globals;
use crate::ast::{Flow, Node, ParsedStory};
use crate::random::Random;
use crate::story::{choice, divert, gather, jump, knot, story, temp};

/// How many stitches a knot has, and how many labels a stitch.
const MOST: usize = 10;

/// So many labels of stitches, which divert to one another as stitch.label and as knot.stitch.label.
pub fn relative(count: usize) -> ParsedStory {
    let mut random = Random::new(19, 0);
    let nodes = (0..count).map(|number| labelled(number, random.below(count)));
    let nodes: Vec<[Node; 3]> = nodes.collect();
    let stitches = nodes.chunks(MOST).enumerate();
    let stitches = stitches.map(|(number, some)| knot(&format!("s{number}"), some.concat()));
    let stitches: Vec<Flow> = stitches.collect();
    let knots = stitches.chunks(MOST).enumerate();
    let knots = knots
        .map(|(number, some)| knot(&format!("k{number}"), Vec::new()).with_stitches(some.to_vec()));
    story(Vec::new(), knots.collect())
}

/// A label, and diverts to another by its number.
fn labelled(number: usize, other: usize) -> [Node; 3] {
    let target = format!("s{}.l{other}", other / MOST);
    let full = format!("k{}.{target}", other / MOST / MOST);
    [
        gather(&format!("l{number}")),
        divert(&target),
        divert(&full),
    ]
}

/// So many knots with a label of one name each, diverted to by its short and by its full name.
pub fn shared_label(count: usize) -> ParsedStory {
    let mut random = Random::new(23, 0);
    let knots = (0..count).map(|number| {
        let full = format!("knot_{}.start", random.below(count));
        let nodes = vec![gather("start"), divert("start"), divert(&full)];
        knot(&format!("knot_{number}"), nodes)
    });
    story(Vec::new(), knots.collect())
}

/// So many globals with two dots each, diverted to by what follows either of them.
pub fn dotted_globals(count: usize) -> ParsedStory {
    let parts = |number: usize| {
        [
            format!("floor_{number}.door_{number}"),
            format!("door_{number}"),
        ]
    };
    let root = (0..count).flat_map(|number| parts(number).map(|target| divert(&target)));
    let globals = (0..count).map(|number| format!("house_{number}.{}", parts(number)[0]));
    with_globals(globals, root.collect(), Vec::new())
}

/// Globals, knots, stitches and labels with up to so many dots, at most 30, and diverts to every end of them.
pub fn many_dots(count: usize) -> ParsedStory {
    let dots = count.min(30);
    let ends = (0..=dots).map(|passed| after_dots(dots, passed));
    let root = ends.map(|end| divert(&end)).collect();
    let nodes = vec![
        gather(&with_dots(dots)),
        jump(4, &after_dots(dots, 1), vec![]),
    ];
    let stitch = knot(&after_dots(dots / 2, 1), nodes.clone());
    let hall = knot(&with_dots(dots / 3), nodes).with_stitches(vec![stitch]);
    let globals = (0..=dots).step_by(2).map(with_dots);
    with_globals(globals, root, vec![hall])
}

/// So many knots, two of three without a name, with stitches and labels without one; of an even number, a global too.
pub fn empty_names(count: usize) -> ParsedStory {
    let name = |number: usize| ["", "hall", ""][number % 3];
    let knots = (0..count).map(|number| {
        let nodes = vec![gather(""), choice(Some(""), vec![divert("")]), temp("t")];
        let target = [".", ".s", "s", "", "hall.", ".."][number % 6];
        let stitch = knot(["", "s"][number % 2], vec![gather("s"), divert(target)]);
        knot(name(number), nodes).with_stitches(vec![stitch])
    });
    let globals = count.is_multiple_of(2).then(String::new);
    with_globals(globals.into_iter(), vec![divert("")], knots.collect())
}
