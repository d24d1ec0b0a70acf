//! Round trips between stories and files, and the encoder's errors.

use differential::ast::{AssignMode, Condition, Expression, Node, ParsedStory};
use differential::cases::case;
use differential::decode::{decode, decode_only};
use differential::encode::{EncodeError, encode};
use differential::generate::wild;
use differential::random::Random;
use differential::story::*;

/// Nodes of every kind, with expressions and conditions of every kind, as the decoder gives them.
fn every_node() -> Vec<Node> {
    let arguments = || vec![variable("v"), target("k"), call("f", vec![constant()])];
    vec![
        Node::Glue,
        Node::Newline,
        output(Expression::Not(Box::new(negate(constant())))),
        jump(3, "k", arguments()),
        jump(4, "k", arguments()),
        jump(5, "k", arguments()),
        Node::TunnelReturn,
        onwards("k"),
        conditional(vec![Node::Newline], None),
        sequence(vec![vec![], vec![Node::Newline]]),
        Node::ReturnBool(true),
        Node::ReturnExpr(variable("v")),
        assign(AssignMode::Set, "v"),
        temp("t"),
        assign(AssignMode::AddAssign, "v"),
        assign(AssignMode::SubtractAssign, "v"),
        choice(None, vec![]),
        gather("g"),
        void_call("f", arguments()),
    ]
}

/// Nodes with a condition or case.
fn every_condition() -> Vec<Node> {
    let tested = Condition::Expression(variable("v"));
    let conditions = vec![Condition::Bool(true), tested];
    vec![
        Node::Conditional {
            condition: Condition::FunctionCall("f".to_string()),
            when_true: vec![],
            when_false: Some(vec![Node::Glue]),
        },
        Node::SwitchConditional {
            value: binary(variable("v"), constant()),
            branches: vec![(Some(constant()), vec![Node::Glue]), (None, vec![])],
        },
        conditional_choice(Some("c"), conditions, vec![divert("END")]),
    ]
}

/// A story with every node, expression and condition kind.
fn every_kind() -> ParsedStory {
    let stitch = knot("s", vec![gather("h")]).with_parameters(&["p"]);
    let flow = knot("k", vec![temp("u")])
        .with_parameters(&["q", "r"])
        .with_marks(&["r"])
        .with_stitches(vec![stitch, knot("", every_condition())]);
    let flows = vec![flow, function("f", vec![Node::ReturnBool(true)])];
    let root = [every_node(), every_condition()].concat();
    let story = story(root, flows).with_globals(&["v", "größe"]);
    story.with_externals(&["ext"])
}

#[test]
fn a_story_of_every_kind_comes_back_from_its_file() {
    let story = every_kind();
    let decoded = decode(&encode(&story).unwrap()).unwrap();
    assert_eq!(decoded.story, story);
    assert!(decoded.names_are_utf8);
}

#[test]
fn every_readable_file_with_utf8_names_comes_back_from_its_story() {
    let mut readable = 0;
    for number in 0..3000 {
        let file = case(5, number).file;
        if let Ok(decoded) = decode(&file)
            && decoded.names_are_utf8
        {
            assert_eq!(encode(&decoded.story).unwrap(), file, "story {number}");
            readable += 1;
        }
    }
    assert!(readable > 1500, "only {readable} files were readable");
}

#[test]
fn decoding_without_notes_gives_the_same_story_or_refusal() {
    for number in 0..1000 {
        let file = case(6, number).file;
        let noted = decode(&file).map(|decoded| decoded.story);
        assert_eq!(decode_only(&file), noted, "story {number}");
    }
}

#[test]
fn encoding_again_what_was_decoded_changes_nothing() {
    for number in 0..500 {
        let story = wild(&mut Random::new(9, number));
        let file = encode(&story).unwrap();
        assert_eq!(encode(&decode(&file).unwrap().story).unwrap(), file);
    }
}

#[test]
fn names_have_at_most_255_bytes() {
    let with = |length: usize| story(vec![gather(&"n".repeat(length))], vec![]);
    assert!(encode(&with(255)).is_ok());
    let error = encode(&with(256)).unwrap_err();
    assert!(matches!(error, EncodeError::NameTooLong { .. }));
    assert!(
        error
            .to_string()
            .starts_with("name of 256 bytes (at most 255): nnn")
    );
}

#[test]
fn flows_have_at_most_255_parameters() {
    let with = |count: usize| {
        let names = vec!["p"; count];
        story(vec![], vec![knot("k", vec![]).with_parameters(&names)])
    };
    let decoded = decode(&encode(&with(255)).unwrap()).unwrap();
    assert_eq!(decoded.story, with(255));
    let error = encode(&with(256)).unwrap_err();
    assert_eq!(error.to_string(), "256 parameters (at most 255) in 'k'");
}

#[test]
fn stitches_have_no_children() {
    let inner = knot("s", vec![]).with_stitches(vec![knot("t", vec![])]);
    let flow = knot("k", vec![]).with_stitches(vec![inner]);
    let error = encode(&story(vec![], vec![flow])).unwrap_err();
    assert_eq!(
        error.to_string(),
        "stitch 's' has children; the file has none"
    );
}

#[test]
fn files_have_at_most_1048576_bytes() {
    let nodes = |count: usize| story(vec![Node::Newline; count], vec![]);
    let most = (1_048_576 - 20) / 5;
    let with = |length: usize| nodes(most).with_globals(&[&"g".repeat(length - 1)]);
    assert_eq!(encode(&nodes(most)).unwrap().len(), 1_048_575);
    assert_eq!(encode(&with(1)).unwrap().len(), 1_048_576);
    let error = encode(&with(2)).unwrap_err();
    assert_eq!(error.to_string(), "file of 1048577 bytes (at most 1048576)");
}

#[test]
fn records_nest_64_deep() {
    let with = |negations: usize| {
        let value = (0..negations).fold(constant(), |value, _| negate(value));
        story(vec![output(value)], vec![])
    };
    assert!(decode(&encode(&with(62)).unwrap()).is_ok());
    let error = encode(&with(63)).unwrap_err();
    assert_eq!(error.to_string(), "records nest deeper than 64");
}
