//! Lookups: each answer, the order of preference, refusals and targets of any bytes.

use super::LookupVector;
use crate::ast::ParsedStory;
use crate::encode::encode;
use crate::layout::file;
use crate::second::Lookup::{self, Ending, Exact, Function, Missing, Pass, Reserved};
use crate::story::{choice, divert, function, gather, knot, story};

/// Lookups as they are put together.
#[derive(Default)]
struct Shelf {
    lookups: Vec<LookupVector>,
}

impl Shelf {
    /// Adds a lookup in a story with an index just long enough.
    fn add(&mut self, what: &str, story: &ParsedStory, target: &[u8], expected: Lookup) {
        let input = encode(story).expect("listed stories are within the limits");
        let index = 3 * (input.len() - 20);
        self.bytes(what, input, index, target, Ok(expected));
    }

    /// Adds a lookup in any bytes.
    fn bytes(
        &mut self,
        what: &str,
        input: Vec<u8>,
        index: usize,
        target: &[u8],
        expected: Result<Lookup, u8>,
    ) {
        self.lookups.push(LookupVector {
            name: format!("lookup-{what}"),
            from: "01, after the call: lookup".to_string(),
            input,
            index,
            target: target.to_vec(),
            expected,
        });
    }
}

/// All lookups.
pub fn lookups() -> Vec<LookupVector> {
    let mut shelf = Shelf::default();
    answers(&mut shelf);
    preference(&mut shelf);
    refused(&mut shelf);
    shelf.lookups
}

/// A story with entries g, a, k, p, k.a, k.s, k.s.a, l, l.s (0 to 8) and function f (9).
fn sample() -> ParsedStory {
    let stitch = knot("s", vec![gather("a")]);
    let first = knot("k", vec![gather("a")])
        .with_parameters(&["p"])
        .with_stitches(vec![stitch]);
    let second = knot("l", vec![]).with_stitches(vec![knot("s", vec![])]);
    let flows = vec![first, second, function("f", vec![])];
    story(vec![choice(Some("a"), vec![divert("nowhere")])], flows).with_globals(&["g"])
}

/// Each answer.
fn answers(shelf: &mut Shelf) {
    let story = sample();
    let targets: [(&str, &[u8], Lookup); 19] = [
        ("empty", b"", Pass),
        ("arrow", b"->", Pass),
        ("dollar", b"$", Pass),
        ("dollar-name", b"$g", Pass),
        ("function", b"f", Function),
        ("end", b"END", Reserved),
        ("done", b"DONE", Reserved),
        ("tunnel-return", b"->->", Reserved),
        ("global", b"g", Exact(vec![0])),
        ("root-label", b"a", Exact(vec![1])),
        ("knot", b"k", Exact(vec![2])),
        ("parameter", b"p", Exact(vec![3])),
        ("knot-label", b"k.a", Exact(vec![4])),
        ("stitch", b"k.s", Exact(vec![5])),
        ("stitch-label", b"k.s.a", Exact(vec![6])),
        ("short-stitch", b"s", Ending(vec![5, 8])),
        ("short-stitch-label", b"s.a", Ending(vec![6])),
        ("missing", b"x", Missing),
        ("missing-dot", b".s", Missing),
    ];
    for (what, target, expected) in targets {
        shelf.add(what, &story, target, expected);
    }
    shelf.add("not-utf8", &story, &[0xFF, 0xFE], Missing);
    shelf.add("long", &story, &[b'k'; 300], Missing);
    let long = [&b"a."[..], &[b'n'; 253]].concat();
    let name = String::from_utf8(long.clone()).unwrap();
    let stitch = knot("k", vec![]).with_stitches(vec![knot(&name, vec![])]);
    let story = crate::story::story(vec![], vec![stitch]);
    let whole = [&b"k."[..], &long].concat();
    shelf.add("longer-than-a-name", &story, &whole, Exact(vec![1]));
    shelf.add("end-of-long-name", &story, &long[2..], Ending(vec![1]));
}

/// Earlier answers are preferred to later ones, and several entries may match.
fn preference(shelf: &mut Shelf) {
    let reserved = story(vec![], vec![]).with_globals(&["END"]);
    shelf.add("reserved-before-exact", &reserved, b"END", Reserved);
    let named = story(vec![], vec![function("END", vec![])]);
    shelf.add("function-before-reserved", &named, b"END", Function);
    let dollar = story(vec![], vec![function("$f", vec![])]);
    shelf.add("pass-before-function", &dollar, b"$f", Pass);
    let exact = story(vec![], vec![]).with_globals(&["k.s", "s"]);
    shelf.add("exact-before-ending", &exact, b"s", Exact(vec![1]));
    let several = story(vec![], vec![]).with_globals(&["s", "x", "s"]);
    shelf.add("several-exact", &several, b"s", Exact(vec![0, 2]));
    let nameless = knot("", vec![gather("a")]).with_stitches(vec![knot("s", vec![gather("b")])]);
    let nameless = story(vec![], vec![nameless]);
    shelf.add("nameless-label", &nameless, b"a", Exact(vec![1]));
    shelf.add("nameless-stitch", &nameless, b".s", Exact(vec![2]));
    shelf.add("nameless-short-stitch", &nameless, b"s", Ending(vec![2]));
    shelf.add("nameless-stitch-label", &nameless, b"s.b", Ending(vec![3]));
    let empty = story(vec![], vec![]);
    shelf.add("no-entries", &empty, b"x", Missing);
}

/// Refusals 1 to 7, whatever the target.
fn refused(shelf: &mut Shelf) {
    let empty = file(&[], &[], &[], &[]);
    let global = file(b"\x01a", &[], &[], &[]);
    let bad_kind = file(&[], &[], &[17, 0, 0, 0, 0], &[]);
    let starts = [&[0; 12], &[1, 0, 0, 0][..], &empty[16..]].concat();
    let deep = crate::limits::placed(0, &crate::limits::nested(0, 65));
    shelf.bytes("refused-1", vec![], 0, b"", Err(1));
    shelf.bytes("refused-2", vec![0; 20], 0, b"", Err(2));
    shelf.bytes("refused-3", starts, 0, b"END", Err(3));
    shelf.bytes("refused-4", file(&[5], &[], &[], &[]), 3, b"", Err(4));
    shelf.bytes("refused-5", bad_kind, 15, b"END", Err(5));
    shelf.bytes("refused-6", deep, 3000, b"", Err(6));
    shelf.bytes("refused-7", global.clone(), 5, b"", Err(7));
    shelf.bytes("exact-index", global, 6, b"a", Ok(Exact(vec![0])));
    shelf.bytes("no-index", empty, 0, b"x", Ok(Missing));
}
