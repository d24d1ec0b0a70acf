//! Each refusal at each kind of field, and which of several is first met.

use super::Expected::{Accepted, Breach, Refused};
use super::{Call, Expected, Shelf, Vector};
use crate::layout::{file, name, number, record, sized, trailer};
use crate::limits::{nested, placed};

/// Refusals 1, 2 and 3.
pub fn header() -> Vec<Vector> {
    let mut shelf = Shelf::of("01, refusals 1 to 3");
    let empty = file(&[], &[], &[], &[]);
    shelf.bytes("no-bytes", vec![], Refused(1));
    shelf.bytes("nineteen-bytes", empty[1..].to_vec(), Refused(1));
    shelf.bytes("twenty-zeros", vec![0; 20], Refused(2));
    for place in 16..20 {
        let mut wrong = empty.clone();
        wrong[place] ^= 1;
        shelf.bytes(&format!("mark-byte-{place}"), wrong, Refused(2));
    }
    let starts = [
        ("first-start-one", [1, 1, 1, 1], 1),
        ("first-start-one-in-twenty-bytes", [1, 0, 0, 0], 0),
        ("second-start-falls", [0, 2, 1, 2], 2),
        ("third-start-falls", [0, 1, 2, 1], 2),
        ("last-start-past-trailer", [0, 0, 0, 3], 2),
        ("last-start-into-trailer", [0, 0, 0, 1], 0),
        ("all-starts-past-trailer", [0, 21, 21, 21], 0),
        ("huge-start", [0, 0, 0, 0xFFFF_FFFF], 0),
    ];
    for (what, starts, sections) in starts {
        let bytes = [vec![0; sections], trailer(starts)].concat();
        shelf.bytes(what, bytes, Refused(3));
    }
    let mut both = vec![0; 20];
    both[0] = 1;
    shelf.bytes("mark-before-starts", both, Refused(2));
    let bytes = [vec![0, 0], trailer([0, 1, 2, 2])].concat();
    shelf.bytes("sections-of-one-empty-name-each", bytes, Accepted);
    shelf.vectors
}

/// A constant expression.
fn constant() -> Vec<u8> {
    record(0, &[])
}

/// A file whose root is these bytes.
fn root(bytes: &[u8]) -> Vec<u8> {
    file(&[], &[], bytes, &[])
}

/// A file whose flows are these bytes.
fn flows(bytes: &[u8]) -> Vec<u8> {
    file(&[], &[], &[], bytes)
}

/// A whole payload for each node kind.
fn node_payloads() -> Vec<Vec<u8>> {
    let x = name(b"$x");
    let named = [x.clone(), constant()].concat();
    let empty = Vec::new;
    let branch = [vec![1], constant(), sized(&[])].concat();
    vec![
        empty(),
        empty(),
        constant(),
        named.clone(),
        named.clone(),
        named.clone(),
        empty(),
        named.clone(),
        [constant(), sized(&[]), vec![1], sized(&[])].concat(),
        [constant(), branch].concat(),
        [sized(&[]), sized(&constant())].concat(),
        empty(),
        constant(),
        [vec![0], x.clone(), constant()].concat(),
        [vec![1], x.clone(), sized(&constant()), sized(&constant())].concat(),
        x.clone(),
        named,
    ]
}

/// A whole payload for each expression kind.
fn expression_payloads() -> Vec<Vec<u8>> {
    let x = name(b"x");
    vec![
        vec![],
        x.clone(),
        x.clone(),
        constant(),
        constant(),
        [x, constant()].concat(),
        [constant(), constant()].concat(),
    ]
}

/// A whole payload for each condition kind.
fn condition_payloads() -> Vec<Vec<u8>> {
    vec![vec![], name(b"x"), constant()]
}

/// Expression bytes in an output.
fn output(expression: &[u8]) -> Vec<u8> {
    root(&record(2, expression))
}

/// Condition bytes in a conditional with an empty list.
fn conditional(condition: &[u8]) -> Vec<u8> {
    root(&record(8, &[condition, &sized(&[]), &[0]].concat()))
}

/// Refusal 4 at each kind of field.
pub fn cut() -> Vec<Vector> {
    let mut shelf = Shelf::of("01, refusal 4");
    whole_and_left_over(&mut shelf);
    cut_names(&mut shelf);
    cut_records(&mut shelf);
    cut_jumps(&mut shelf);
    cut_branches(&mut shelf);
    cut_statements(&mut shelf);
    cut_expressions(&mut shelf);
    cut_flows(&mut shelf);
    cut_stitches(&mut shelf);
    shelf.vectors
}

/// Each kind with a whole payload, and with one byte more.
fn whole_and_left_over(shelf: &mut Shelf) {
    let longer = |payload: &[u8]| [payload, &[0]].concat();
    for (kind, payload) in (0..).zip(node_payloads()) {
        let whole = root(&record(kind, &payload));
        shelf.bytes(&format!("node-{kind}-whole"), whole, Accepted);
        let left = root(&record(kind, &longer(&payload)));
        shelf.bytes(&format!("node-{kind}-byte-left"), left, Refused(4));
    }
    for (kind, payload) in (0..).zip(expression_payloads()) {
        let whole = output(&record(kind, &payload));
        shelf.bytes(&format!("expression-{kind}-whole"), whole, Accepted);
        let left = output(&record(kind, &longer(&payload)));
        shelf.bytes(&format!("expression-{kind}-byte-left"), left, Refused(4));
    }
    for (kind, payload) in (0..).zip(condition_payloads()) {
        let whole = conditional(&record(kind, &payload));
        shelf.bytes(&format!("condition-{kind}-whole"), whole, Accepted);
        let left = conditional(&record(kind, &longer(&payload)));
        shelf.bytes(&format!("condition-{kind}-byte-left"), left, Refused(4));
    }
}

/// Names of globals and externals.
fn cut_names(shelf: &mut Shelf) {
    shelf.bytes("global-count-alone", file(&[5], &[], &[], &[]), Refused(4));
    shelf.bytes(
        "global-one-byte-short",
        file(b"\x02a", &[], &[], &[]),
        Refused(4),
    );
    let second = file(b"\x01a\x02b", &[], &[], &[]);
    shelf.bytes("second-global-short", second, Refused(4));
    shelf.bytes(
        "external-one-byte-short",
        file(&[], b"\x02a", &[], &[]),
        Refused(4),
    );
    let across = file(b"\x02a", b"b", &[], &[]);
    shelf.bytes("global-into-externals", across, Refused(4));
    let across = file(&[], b"\x01", &constant(), &[]);
    shelf.bytes("external-into-root", across, Refused(4));
}

/// Headers and payload lengths.
fn cut_records(shelf: &mut Shelf) {
    for length in 1..5 {
        let bytes = root(&constant()[..length]);
        shelf.bytes(&format!("header-of-{length}-bytes"), bytes, Refused(4));
    }
    let past = |length: [u8; 4]| root(&[&[0], &length[..]].concat());
    shelf.bytes("payload-one-past-root", past(number(1)), Refused(4));
    shelf.bytes("payload-huge", past([0xFF; 4]), Refused(4));
    shelf.bytes("payload-high-byte", past([0, 0, 0, 1]), Refused(4));
    let into_flows = [&[1][..], &number(4), &sized(&[0; 8])].concat();
    let bytes = [into_flows, trailer([0, 0, 0, 5])].concat();
    shelf.bytes("payload-into-flows", bytes, Refused(4));
    let inner = record(2, &[&[0], &number(1)[..]].concat());
    let bytes = root(&[inner, vec![0]].concat());
    shelf.bytes("inner-payload-past-outer", bytes, Refused(4));
    let second = root(&[constant(), vec![0]].concat());
    shelf.bytes("second-header-cut", second, Refused(4));
}

/// Adds root records that are refused.
fn add_cut(shelf: &mut Shelf, payloads: Vec<(&str, u8, Vec<u8>)>) {
    for (what, kind, payload) in payloads {
        shelf.bytes(what, root(&record(kind, &payload)), Refused(4));
    }
}

/// Payloads of outputs and jumps that end too soon.
fn cut_jumps(shelf: &mut Shelf) {
    let x = name(b"x");
    let payloads: Vec<(&str, u8, Vec<u8>)> = vec![
        ("output-empty", 2, vec![]),
        ("divert-empty", 3, vec![]),
        ("divert-name-short", 3, vec![2, b'x']),
        ("divert-argument-cut", 3, [&x[..], &[0, 0]].concat()),
        ("tunnel-empty", 4, vec![]),
        ("thread-name-short", 5, vec![1]),
        ("onwards-empty", 7, vec![]),
        ("onwards-argument-cut", 7, [&x[..], &[0]].concat()),
    ];
    add_cut(shelf, payloads);
}

/// Payloads of conditionals, switches and sequences that end too soon.
fn cut_branches(shelf: &mut Shelf) {
    let list = sized(&[]);
    let test = constant();
    let payloads: Vec<(&str, u8, Vec<u8>)> = vec![
        ("conditional-empty", 8, vec![]),
        ("conditional-no-list", 8, test.clone()),
        (
            "conditional-list-length-cut",
            8,
            [&test[..], &[0, 0, 0]].concat(),
        ),
        ("conditional-list-past", 8, [&test[..], &number(1)].concat()),
        ("conditional-no-flag", 8, [&test[..], &list].concat()),
        (
            "conditional-no-second-list",
            8,
            [&test[..], &list, &[1]].concat(),
        ),
        (
            "conditional-list-behind-flag-0",
            8,
            [&test[..], &list, &[0], &list].concat(),
        ),
        ("switch-empty", 9, vec![]),
        ("switch-branch-no-list", 9, [&test[..], &[0]].concat()),
        ("switch-branch-no-case", 9, [&test[..], &[1]].concat()),
        ("switch-case-no-list", 9, [&test[..], &[1], &test].concat()),
        (
            "switch-list-past",
            9,
            [&test[..], &[0], &number(1)].concat(),
        ),
        ("sequence-list-length-cut", 10, vec![0, 0, 0]),
        ("sequence-list-past", 10, number(1).to_vec()),
        ("sequence-record-cut", 10, sized(&[0])),
    ];
    add_cut(shelf, payloads);
}

/// Payloads of the other nodes that end too soon.
fn cut_statements(shelf: &mut Shelf) {
    let x = name(b"x");
    let list = sized(&[]);
    let payloads: Vec<(&str, u8, Vec<u8>)> = vec![
        ("return-empty", 12, vec![]),
        ("assignment-empty", 13, vec![]),
        ("assignment-no-name", 13, vec![1]),
        ("assignment-name-short", 13, vec![1, 2, b'x']),
        ("assignment-no-expression", 13, [&[1], &x[..]].concat()),
        ("choice-empty", 14, vec![]),
        ("choice-no-label", 14, vec![1]),
        ("choice-no-conditions", 14, vec![0]),
        (
            "choice-condition-cut",
            14,
            [&[0], &sized(&[0])[..], &list].concat(),
        ),
        (
            "choice-conditions-past",
            14,
            [&[0], &number(1)[..]].concat(),
        ),
        ("choice-no-body", 14, [&[0], &list[..]].concat()),
        (
            "choice-body-past",
            14,
            [&[0], &list[..], &number(1)].concat(),
        ),
        (
            "choice-body-record-cut",
            14,
            [&[0], &list[..], &sized(&[1, 0])].concat(),
        ),
        ("gather-empty", 15, vec![]),
        ("gather-name-short", 15, vec![1]),
        ("call-empty", 16, vec![]),
        ("call-argument-cut", 16, [&x[..], &[0, 0, 0, 0]].concat()),
    ];
    add_cut(shelf, payloads);
}

/// Payloads of expressions and conditions that end too soon.
fn cut_expressions(shelf: &mut Shelf) {
    let x = name(b"x");
    let expressions: [(&str, u8, Vec<u8>); 9] = [
        ("variable-empty", 1, vec![]),
        ("variable-name-short", 1, vec![1]),
        ("target-value-empty", 2, vec![]),
        ("negate-empty", 3, vec![]),
        ("not-empty", 4, vec![]),
        ("function-call-empty", 5, vec![]),
        ("function-call-argument-cut", 5, [&x[..], &[0]].concat()),
        ("binary-empty", 6, vec![]),
        ("binary-no-right", 6, constant()),
    ];
    for (what, kind, payload) in expressions {
        shelf.bytes(what, output(&record(kind, &payload)), Refused(4));
    }
    let conditions = [
        ("condition-call-empty", 1, vec![]),
        ("condition-call-name-short", 1, vec![1]),
        ("condition-expression-empty", 2, vec![]),
    ];
    for (what, kind, payload) in conditions {
        shelf.bytes(what, conditional(&record(kind, &payload)), Refused(4));
    }
}

/// Flows that end too soon or run past their section.
fn cut_flows(shelf: &mut Shelf) {
    for length in 1..4 {
        let bytes = flows(&vec![0; length]);
        shelf.bytes(&format!("flow-length-of-{length}-bytes"), bytes, Refused(4));
    }
    shelf.bytes("flow-past-section", flows(&number(1)), Refused(4));
    shelf.bytes("flow-huge", flows(&[0xFF; 4]), Refused(4));
    let parts: [(&str, &[u8]); 9] = [
        ("flow-no-flag", &[]),
        ("flow-no-name", &[0]),
        ("flow-name-short", &[0, 1]),
        ("flow-no-parameters", &[0, 0]),
        ("flow-parameter-absent", &[0, 0, 1]),
        ("flow-parameter-short", &[0, 0, 1, 1]),
        ("flow-no-marks", &[0, 0, 0]),
        ("flow-mark-absent", &[0, 0, 0, 1]),
        ("flow-no-list", &[0, 0, 0, 0]),
    ];
    for (what, part) in parts {
        shelf.bytes(what, flows(&sized(part)), Refused(4));
    }
    let head = [0, 0, 0, 0];
    let list_cut = [&head[..], &[0, 0, 0]].concat();
    shelf.bytes("flow-list-length-cut", flows(&sized(&list_cut)), Refused(4));
    let list_past = [&head[..], &number(1)].concat();
    shelf.bytes("flow-list-past", flows(&sized(&list_past)), Refused(4));
    let record_cut = [&head[..], &sized(&[0, 0])].concat();
    shelf.bytes("flow-record-cut", flows(&sized(&record_cut)), Refused(4));
    let whole = sized(&[&head[..], &sized(&[])].concat());
    shelf.bytes("flow-whole", flows(&whole), Accepted);
    let two = [&whole[..], &[0]].concat();
    shelf.bytes("flow-then-byte", flows(&two), Refused(4));
}

/// Stitches that end too soon, run past their flow or have bytes left.
fn cut_stitches(shelf: &mut Shelf) {
    let with = |stitches: &[u8]| {
        let head = [&[0, 0, 0, 0], &sized(&[])[..]].concat();
        flows(&sized(&[head, stitches.to_vec()].concat()))
    };
    for length in 1..4 {
        let bytes = with(&vec![0; length]);
        shelf.bytes(
            &format!("stitch-length-of-{length}-bytes"),
            bytes,
            Refused(4),
        );
    }
    shelf.bytes("stitch-past-flow", with(&number(1)), Refused(4));
    let parts: [(&str, &[u8]); 7] = [
        ("stitch-no-name", &[]),
        ("stitch-name-short", &[1]),
        ("stitch-no-parameters", &[0]),
        ("stitch-parameter-absent", &[0, 1]),
        ("stitch-no-marks", &[0, 0]),
        ("stitch-mark-absent", &[0, 0, 1]),
        ("stitch-no-list", &[0, 0, 0]),
    ];
    for (what, part) in parts {
        shelf.bytes(what, with(&sized(part)), Refused(4));
    }
    let whole = [&[0, 0, 0], &sized(&[])[..]].concat();
    shelf.bytes("stitch-whole", with(&sized(&whole)), Accepted);
    let left = [&whole[..], &[0]].concat();
    shelf.bytes("stitch-byte-left", with(&sized(&left)), Refused(4));
    let list_past = [&[0, 0, 0], &number(1)[..]].concat();
    shelf.bytes("stitch-list-past", with(&sized(&list_past)), Refused(4));
}

/// Refusal 5 at each kind of field.
pub fn meanings() -> Vec<Vector> {
    let mut shelf = Shelf::of("01, refusal 5");
    for kind in [17, 18, 0x80, 0xFF] {
        shelf.bytes(
            &format!("node-kind-{kind}"),
            root(&record(kind, &[])),
            Refused(5),
        );
    }
    for kind in [7, 8, 0xFF] {
        let bytes = output(&record(kind, &[]));
        shelf.bytes(&format!("expression-kind-{kind}"), bytes, Refused(5));
    }
    for kind in [3, 4, 0xFF] {
        let bytes = conditional(&record(kind, &[]));
        shelf.bytes(&format!("condition-kind-{kind}"), bytes, Refused(5));
    }
    let choice = [vec![0], sized(&record(3, &[])), sized(&[])].concat();
    shelf.bytes(
        "choice-condition-kind-3",
        root(&record(14, &choice)),
        Refused(5),
    );
    let argument = [name(b"$x"), record(7, &[])].concat();
    shelf.bytes("argument-kind-7", root(&record(3, &argument)), Refused(5));
    let list = sized(&record(17, &[]));
    shelf.bytes(
        "sequence-node-kind-17",
        root(&record(10, &list)),
        Refused(5),
    );
    for flag in [2, 0xFF] {
        flags(&mut shelf, flag);
    }
    modes(&mut shelf);
    shelf.vectors
}

/// Modes with and without a meaning.
fn modes(shelf: &mut Shelf) {
    for mode in 0..6 {
        let payload = [&[mode], &name(b"x")[..], &constant()].concat();
        let expected = if mode < 4 { Accepted } else { Refused(5) };
        let bytes = root(&record(13, &payload));
        shelf.bytes(&format!("mode-{mode}"), bytes, expected);
    }
}

/// A flag without a meaning in each place that has one.
fn flags(shelf: &mut Shelf, flag: u8) {
    let test = [constant(), sized(&[]), vec![flag], sized(&[])].concat();
    shelf.bytes(
        &format!("conditional-flag-{flag}"),
        root(&record(8, &test)),
        Refused(5),
    );
    let switch = [constant(), vec![flag], sized(&[])].concat();
    shelf.bytes(
        &format!("switch-flag-{flag}"),
        root(&record(9, &switch)),
        Refused(5),
    );
    let choice = [vec![flag], sized(&[]), sized(&[])].concat();
    shelf.bytes(
        &format!("choice-flag-{flag}"),
        root(&record(14, &choice)),
        Refused(5),
    );
    let flow = sized(&[&[flag, 0, 0, 0], &sized(&[])[..]].concat());
    shelf.bytes(&format!("flow-flag-{flag}"), flows(&flow), Refused(5));
}

/// Refusal 6 in each body.
pub fn depth() -> Vec<Vector> {
    let mut shelf = Shelf::of("01, refusal 6");
    for (body, what) in (0..).zip(["root", "flow", "stitch"]) {
        let deep = placed(body, &nested(0, 64));
        shelf.bytes(&format!("depth-64-in-{what}"), deep, Accepted);
        let deeper = placed(body, &nested(0, 65));
        shelf.bytes(&format!("depth-65-in-{what}"), deeper, Refused(6));
    }
    let mut deepest = record(10, &sized(&[]));
    for _ in 1..64 {
        deepest = record(10, &sized(&deepest));
    }
    shelf.bytes("depth-64-holding-empty-list", root(&deepest), Accepted);
    shelf.vectors
}

/// Files with several faults, and which is met first.
pub fn first_met() -> Vec<Vector> {
    let mut shelf = Shelf::of("01, order of refusals 4 to 6");
    let bad_kind = record(17, &[]);
    let cut = vec![0];
    let both = root(&[bad_kind.clone(), cut.clone()].concat());
    shelf.bytes("kind-before-later-cut", both, Refused(5));
    let past = root(&[&[17], &number(9)[..]].concat());
    shelf.bytes("payload-fits-before-kind", past, Refused(4));
    let header = root(&[17, 0]);
    shelf.bytes("header-fits-before-kind", header, Refused(4));
    let payload = root(&record(17, &[9, 9]));
    shelf.bytes("kind-before-payload", payload, Refused(5));
    let sections = file(&[9], &[], &bad_kind, &[]);
    shelf.bytes("globals-before-root", sections, Refused(4));
    let sections = file(&[], &[], &bad_kind, &cut);
    shelf.bytes("root-before-flows", sections, Refused(5));
    let sections = file(&[], &cut, &bad_kind, &[]);
    shelf.bytes("external-empty-name-then-kind", sections, Refused(5));
    let left = root(&record(2, &[bad_kind.clone(), cut.clone()].concat()));
    shelf.bytes("inner-kind-before-bytes-left", left, Refused(5));
    let outer = root(&[record(2, &[constant(), cut.clone()].concat()), bad_kind].concat());
    shelf.bytes("bytes-left-before-next-record", outer, Refused(4));
    deep_faults(&mut shelf);
    flag_faults(&mut shelf);
    shelf.vectors
}

/// Faults of a record that also lies too deep.
fn deep_faults(shelf: &mut Shelf) {
    let at_65 = |inner: &[u8]| {
        let mut bytes = inner.to_vec();
        for _ in 0..64 {
            bytes = record(10, &sized(&bytes));
        }
        root(&bytes)
    };
    shelf.bytes("kind-before-depth", at_65(&record(17, &[])), Refused(5));
    shelf.bytes("header-before-depth", at_65(&[0, 0]), Refused(4));
    let past = [&[0], &number(1)[..]].concat();
    shelf.bytes("payload-fits-before-depth", at_65(&past), Refused(4));
    shelf.bytes("depth-before-payload", at_65(&record(0, &[0])), Refused(6));
    let then_cut = [record(0, &[]), vec![0]].concat();
    shelf.bytes("depth-before-later-cut", at_65(&then_cut), Refused(6));
}

/// A flag or mode is judged before what follows it.
fn flag_faults(shelf: &mut Shelf) {
    shelf.bytes("flow-flag-before-cut", flows(&sized(&[2])), Refused(5));
    shelf.bytes(
        "choice-flag-before-cut",
        root(&record(14, &[2])),
        Refused(5),
    );
    shelf.bytes("mode-before-cut", root(&record(13, &[4])), Refused(5));
    let test = [constant(), sized(&[]), vec![2]].concat();
    shelf.bytes(
        "conditional-flag-before-cut",
        root(&record(8, &test)),
        Refused(5),
    );
    let list = [constant(), sized(&[0]), vec![2]].concat();
    shelf.bytes("list-before-flag", root(&record(8, &list)), Refused(4));
    let stitch = sized(&[0, 0, 0]);
    let flow = sized(&[&[0, 0, 0, 0], &sized(&record(17, &[]))[..], &stitch].concat());
    shelf.bytes("flow-list-before-stitch", flows(&flow), Refused(5));
}

/// Refusals 7 and 8, which depend on what is lent.
pub fn lent() -> Vec<Call> {
    let empty = || file(&[], &[], &[], &[]);
    let global = || file(&name(b"a"), &[], &[], &[]);
    let divert = || root(&record(3, &name(b"x")));
    vec![
        lending("index-of-5", global(), 5, 640, Refused(7)),
        lending("index-of-6", global(), 6, 640, Accepted),
        lending("index-of-7", global(), 7, 641, Accepted),
        lending("no-index-for-empty-story", empty(), 0, 640, Accepted),
        lending("message-of-639", empty(), 0, 639, Refused(8)),
        lending("no-message", empty(), 0, 0, Refused(8)),
        lending("index-before-message", global(), 5, 639, Refused(7)),
        lending("unreadable-before-index", root(&[0]), 0, 0, Refused(4)),
        lending("mark-before-index", vec![0; 20], 0, 0, Refused(2)),
        lending("exact-buffers", divert(), 21, 640, Breach(2, 2)),
        lending("index-one-short", divert(), 20, 640, Refused(7)),
        lending("message-one-short", divert(), 21, 639, Refused(8)),
        lending("longer-buffers", divert(), 30, 700, Breach(2, 2)),
    ]
}

/// A call with an index and a message buffer of these lengths.
fn lending(what: &str, input: Vec<u8>, index: usize, message: usize, expected: Expected) -> Call {
    let mut shelf = Shelf::of("01, refusals 7 and 8");
    shelf.bytes(what, input, expected);
    Call {
        vector: shelf.vectors.remove(0),
        index,
        message,
    }
}
