//! The second implementation on examples whose answers were worked out by hand.

use differential::ast::{Condition, Node, ParsedStory};
use differential::encode::encode;
use differential::layout::{file, name, record};
use differential::limits::file_of_length;
use differential::second::{self, Answer, Entry, NONE, Report};
use differential::story::*;

/// The report of a story that is not refused.
fn report(story: &ParsedStory) -> Report {
    let file = encode(story).unwrap();
    match second::check(&file, 3 * (file.len() - 20), 640) {
        Answer::Checked(report) => report,
        Answer::Refused(refusal) => panic!("refused {refusal}"),
    }
}

/// Rule, place and names of a story's first breach.
fn breach(story: &ParsedStory) -> (u8, u32, [u32; 2]) {
    let breach = report(story).breach.unwrap();
    (breach.rule, breach.place, breach.names)
}

#[test]
fn the_program_prints_the_line_of_the_scope_paper() {
    let sections = [0x03, 0x02, 0x00, 0x00, 0x00, 0x01, 0x78];
    let trailer = [
        0, 0, 0, 0, 0, 0, 0, 0, 0, 0, 0, 0, 7, 0, 0, 0, 0x49, 0x4B, 0x01, 0x00,
    ];
    let line = second::program_line(&[&sections[..], &trailer].concat());
    assert_eq!(line, b"breach 2 at 0: Divert target not found: '-> x'");
}

#[test]
fn the_program_reads_4096_bytes() {
    assert_eq!(second::program_line(&file_of_length(4096)), b"accepted");
    assert_eq!(second::program_line(&file_of_length(4097)), b"refused 1");
}

#[test]
fn the_longest_file_is_1048576_bytes() {
    let refusal = |length| match second::check(&file_of_length(length), 3 * length, 640) {
        Answer::Refused(refusal) => refusal,
        Answer::Checked(_) => 0,
    };
    assert_eq!(refusal(1_048_576), 0);
    assert_eq!(refusal(1_048_577), 1);
}

#[test]
fn each_refusal_has_its_example() {
    let refused = |file: &[u8], index, message| second::check(file, index, message);
    let root = |bytes: &[u8]| file(&[], &[], bytes, &[]);
    let mut negates = record(0, &[]);
    for _ in 0..63 {
        negates = record(3, &negates);
    }
    let mut moved = root(&[]);
    moved[0] = 1;
    let examples: [(u8, Vec<u8>, usize, usize); 8] = [
        (1, vec![], 0, 640),
        (2, vec![0; 20], 0, 640),
        (3, moved, 0, 640),
        (4, file(&[5], &[], &[], &[]), 3, 640),
        (5, root(&[0x11, 0, 0, 0, 0]), 15, 640),
        (6, root(&record(2, &negates)), 3000, 640),
        (7, file(&name(b"a"), &[], &[], &[]), 5, 640),
        (8, root(&[]), 0, 639),
    ];
    for (refusal, file, index, message) in examples {
        assert_eq!(refused(&file, index, message), Answer::Refused(refusal));
    }
}

#[test]
fn breaches_in_bodies_stand_at_the_kind_byte() {
    // Root divert of 7 bytes, then the flow f: length at 7, flag 11, name 12.
    let to_function = story(vec![divert("f")], vec![function("f", vec![])]);
    assert_eq!(breach(&to_function), (1, 0, [5, NONE]));
    // Output header 0 to 4, call header 5 to 9, its name at 10.
    let called = story(vec![output(call("k", vec![]))], vec![knot("k", vec![])]);
    assert_eq!(breach(&called), (3, 5, [10, NONE]));
    // Assignment header 0 to 4, mode 5, name 6.
    let temp_of_label = story(vec![temp("a"), gather("a")], vec![]);
    assert_eq!(breach(&temp_of_label), (7, 0, [6, NONE]));
    // Two gathers of 7 bytes each.
    let gathers = story(vec![gather("a"), gather("a")], vec![]);
    assert_eq!(breach(&gathers), (10, 7, [12, NONE]));
    // Conditional header 0 to 4, condition 5 to 9, list length 10 to 13, choice at 14.
    let choices = story(vec![conditional(vec![choice(None, vec![])], None)], vec![]);
    assert_eq!(breach(&choices), (11, 14, [NONE, NONE]));
}

#[test]
fn breaches_in_flows_stand_where_the_scope_paper_says() {
    // Flow length 0 to 3, flag 4, name 5 and 6, parameters from 7, marks, list length.
    let stitches = function("f", vec![]).with_stitches(vec![knot("s", vec![])]);
    assert_eq!(breach(&story(vec![], vec![stitches])), (12, 0, [5, NONE]));
    let diverts = function("f", vec![divert("x")]);
    assert_eq!(breach(&story(vec![], vec![diverts])), (14, 13, [5, 18]));
    let choices = function("f", vec![choice(None, vec![])]);
    assert_eq!(breach(&story(vec![], vec![choices])), (13, 13, [5, NONE]));
    let parameter = function("f", vec![]).with_parameters(&["p", "f"]);
    assert_eq!(breach(&story(vec![], vec![parameter])), (4, 10, [10, NONE]));
    // Mark count 8, mark 9 and 10, list length 11 to 14, divert at 15 with its name from 20 to 23,
    // constant at 24, target at 29 with its name at 34.
    let arguments = vec![constant(), target("m")];
    let twice = knot("k", vec![jump(3, "END", arguments)]).with_marks(&["m"]);
    assert_eq!(breach(&story(vec![], vec![twice])), (9, 29, [34, NONE]));
    let unmarked = knot("k", vec![divert("p")]).with_parameters(&["p"]);
    assert_eq!(breach(&story(vec![], vec![unmarked])), (8, 15, [20, NONE]));
}

#[test]
fn a_stitch_name_stands_at_its_count_byte() {
    // Global 0 and 1; flow from 2 with its list length at 11 to 14; stitch length 15 to 18.
    let flow = knot("k", vec![]).with_stitches(vec![knot("g", vec![])]);
    let story = story(vec![], vec![flow]).with_globals(&["g"]);
    assert_eq!(breach(&story), (5, 19, [19, NONE]));
}

#[test]
fn the_numbers_kept_have_place_sort_branch_label_and_leaving() {
    // Conditional 0, its condition 5 with its name at 10, list length 12 to 15, choice 16 with its flag at 21 and its
    // label at 22, list lengths 24 to 31, divert 32, the conditional's flag 39, temp 40 with its constant at 48,
    // divert 53 with its name at 58, target 60, variable 67.
    let test = Node::Conditional {
        condition: Condition::FunctionCall("f".to_string()),
        when_true: vec![choice(Some("c"), vec![divert("k")])],
        when_false: None,
    };
    let arguments = vec![target("m"), variable("g")];
    let nodes = vec![test, temp("t"), jump(3, "k", arguments)];
    let kept = second::kept(&encode(&story(nodes, vec![])).unwrap());
    let marked = |mark: u32, place: u32| (mark << 20) + place;
    let expected = [
        marked(5, 5),
        marked(8 + 16 + 32 + 64, 16),
        marked(2, 32),
        marked(1, 40),
        marked(2, 53),
        marked(7, 60),
    ];
    assert_eq!(kept.numbers, expected);
    assert_eq!((kept.refusal, kept.met), (None, 9));
}

#[test]
fn a_record_with_a_refused_payload_is_met() {
    let root = [record(15, &name(b"a")), record(13, &[1]), record(15, &[0])].concat();
    let kept = second::kept(&file(&[], &[], &root, &[]));
    assert_eq!(kept.numbers, [(9 + 32) << 20, (1 << 20) + 7]);
    assert_eq!((kept.refusal, kept.met), (Some(4), 2));
}

#[test]
fn a_choice_that_leaves_has_the_bit_in_its_own_number() {
    // Choice 0, its flag 5, list length 6 to 9, condition 10 with its name at 15, list length 17 to 20, TunnelReturn 21, Newline 26.
    let listed = |records: &[u8]| {
        let length = u32::try_from(records.len()).unwrap().to_le_bytes();
        [&length[..], records].concat()
    };
    let conditions = listed(&record(1, &name(b"f")));
    let body = listed(&[record(6, &[]), record(1, &[])].concat());
    let choice = record(14, &[&[0][..], &conditions, &body].concat());
    let kept = second::kept(&file(&[], &[], &choice, &[]));
    assert_eq!(kept.numbers, [(8 + 64) << 20, (5 << 20) + 10]);
    assert_eq!((kept.refusal, kept.met), (None, 4));
}

#[test]
fn the_index_has_entries_in_order() {
    let stitch = knot("s", vec![choice(Some("c"), vec![])]).with_parameters(&["q"]);
    let flow = knot("k", vec![gather("a")])
        .with_parameters(&["p"])
        .with_stitches(vec![stitch]);
    let story = story(vec![gather("r")], vec![flow]).with_globals(&["g"]);
    let file = encode(&story).unwrap();
    let entries = report(&story).entries;
    let expected: [Entry; 8] = [
        [NONE, NONE, 0],
        [NONE, NONE, 7],
        [NONE, NONE, 14],
        [NONE, NONE, 17],
        [14, NONE, 29],
        [14, NONE, 35],
        [NONE, NONE, 38],
        [14, 35, 51],
    ];
    assert_eq!(entries, expected);
    let spellings = entries.iter().map(|entry| second::spelling(&file, entry));
    let spellings: Vec<String> = spellings.map(|s| String::from_utf8(s).unwrap()).collect();
    assert_eq!(spellings, ["g", "r", "k", "p", "k.a", "k.s", "q", "k.s.c"]);
}

#[test]
fn a_nameless_flow_puts_no_prefix_on_its_own_labels() {
    let stitch = knot("s", vec![gather("b")]);
    let flow = knot("", vec![gather("a")]).with_stitches(vec![stitch]);
    let story = story(vec![], vec![flow]);
    let file = encode(&story).unwrap();
    let entries = report(&story).entries;
    assert_eq!(entries[1][0], NONE);
    assert_eq!(entries[2][0], entries[3][0]);
    let spellings = entries.iter().map(|entry| second::spelling(&file, entry));
    let spellings: Vec<String> = spellings.map(|s| String::from_utf8(s).unwrap()).collect();
    assert_eq!(spellings, ["", "a", ".s", ".s.b"]);
}

#[test]
fn all_breaches_are_listed_with_their_step_instances() {
    let own = vec![
        temp("f"),
        divert("x"),
        gather("a"),
        gather("a"),
        gather("a"),
    ];
    let flow = knot("k", own).with_stitches(vec![knot("s", vec![divert("f")])]);
    let flows = vec![function("f", vec![]), flow];
    let file = encode(&story(vec![gather("b"), gather("b")], flows)).unwrap();
    let breaches = second::all_breaches(&file, 3 * file.len()).unwrap();
    let listed: Vec<(u8, u8, u32)> = breaches
        .iter()
        .map(|one| (one.rule, one.step, one.instance))
        .collect();
    // Root 0 to 3; f 4 to 11; k 12 to 18, its stitch 19 to 25, its gathers 26; the root's 27.
    let expected = [
        (4, 7, 14),
        (2, 8, 15),
        (1, 14, 21),
        (10, 19, 26),
        (10, 19, 26),
        (10, 20, 27),
    ];
    assert_eq!(listed, expected);
}
