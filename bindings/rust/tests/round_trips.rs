//! Stories to bytes and back, the worked example of the format, and what has no file.

use qaabireed::{
    Answer, AssignMode, Branch, Call, Choice, Condition, EncodeError, Expression, Flow, Name, Node,
    Stitch, Story, Validator, decode, outline,
};

/// The worked example of docs/FORMAT.md.
fn example() -> Story {
    let hall = Flow::knot("hall")
        .divert_parameter("door")
        .node(Node::conditional(
            Expression::variable("gold"),
            [Node::divert("door")],
        ))
        .node(Choice::new().label("look").node(Node::divert("hall.dark")))
        .stitch(
            Stitch::new("dark")
                .node(Node::temp("n", Expression::Constant))
                .node(Node::divert("END")),
        );
    Story::new()
        .global("gold")
        .external("ring")
        .node(Node::divert(
            Call::new("hall").argument(Expression::target("hall")),
        ))
        .flow(hall)
}

/// Every node, expression and condition, every flag and every mode.
fn every_node() -> Vec<Node> {
    let call = || {
        Call::new("f")
            .argument(Expression::Constant)
            .argument(Expression::variable("x"))
    };
    vec![
        Node::Plain,
        Node::Newline,
        Node::output(Expression::negate(Expression::negation(
            Expression::target("k"),
        ))),
        Node::divert(call()),
        Node::tunnel(call()),
        Node::thread(call()),
        Node::TunnelReturn,
        Node::onwards(call()),
        Node::conditional(Condition::Bool, [Node::Plain]),
        Node::conditional_else(Condition::FunctionCall("f".into()), [], [Node::Newline]),
        Node::switch(
            Expression::variable("x"),
            [
                Branch::case(Expression::Constant, [Node::Plain]),
                Branch::otherwise([]),
            ],
        ),
        Node::sequence([vec![], vec![Node::Plain, Node::Newline]]),
        Node::ReturnBool,
        Node::ReturnExpr(Expression::call(call())),
        Node::set(
            "x",
            Expression::binary(Expression::Constant, Expression::variable("y")),
        ),
        Node::temp("t", Expression::Constant),
        Node::assign(AssignMode::AddAssign, "x", Expression::Constant),
        Node::assign(AssignMode::SubtractAssign, "x", Expression::Constant),
        Choice::new()
            .condition(Condition::Bool)
            .condition(Expression::Constant)
            .into(),
        Choice::new().label("c").node(Node::Plain).into(),
        Node::gather("g"),
        Node::call(call()),
    ]
}

/// A story with every node in each of its bodies.
fn everything() -> Story {
    let nodes = every_node();
    let stitch = Stitch::new("s")
        .parameter("p")
        .divert_parameter("q")
        .nodes(nodes.clone());
    let flow = Flow::knot("k")
        .parameter("p")
        .divert_parameter("q")
        .nodes(nodes.clone());
    Story::new()
        .global("x")
        .global("")
        .external("e")
        .nodes(nodes)
        .flow(flow.stitch(stitch))
        .flow(Flow::function("f"))
        .flow(Flow::knot(&b"caf\xe9"[..]))
}

#[test]
fn the_worked_example_has_the_bytes_of_its_table() {
    let table = include_str!("../../../docs/FORMAT.md");
    let rows = table.lines().filter_map(|line| {
        let cells: Vec<&str> = line.split('|').map(str::trim).collect();
        match cells[..] {
            ["", place, bytes, _, ""] if place.parse::<usize>().is_ok() => Some(bytes),
            _ => None,
        }
    });
    let is_pair = |word: &&str| word.len() == 2 && u8::from_str_radix(word, 16).is_ok();
    let rows = rows.filter(|row| row.split(' ').all(|word| is_pair(&word)));
    let pairs: Vec<&str> = rows.flat_map(|row| row.split(' ')).collect();
    let bytes: Vec<u8> = pairs
        .iter()
        .map(|pair| u8::from_str_radix(pair, 16).unwrap())
        .collect();
    assert_eq!(example().encode(), Ok(bytes));
}

#[test]
fn the_sample_is_the_worked_example() {
    let sample = include_bytes!("../../samples/hall.inkb");
    assert_eq!(example().encode(), Ok(sample.to_vec()));
}

#[test]
fn the_worked_example_is_accepted_and_has_its_spellings() {
    let file = example().encode().unwrap();
    let mut validator = Validator::new();
    assert_eq!(
        validator.check_bytes(&file),
        Answer::Accepted { entries: 5 }
    );
    let spelled = validator
        .entries()
        .map(|entry| Name::from(entry.spelling(&file)));
    let spelled: Vec<String> = spelled.map(|name| name.to_string()).collect();
    assert_eq!(spelled, ["gold", "hall", "door", "hall.look", "hall.dark"]);
}

#[test]
fn stories_come_back_as_they_were() {
    for story in [Story::new(), example(), everything()] {
        let file = story.encode().unwrap();
        assert_eq!(decode(&file), Ok(story));
    }
}

#[test]
fn every_kind_is_in_the_outline() {
    let file = everything().encode().unwrap();
    let outline = outline(&file);
    assert_eq!(outline.stop, None);
    for title in [
        "SwitchConditional",
        "GatherLabel",
        "Binary",
        "Bool condition",
        "stitch",
        "else",
    ] {
        assert!(
            outline.pieces.iter().any(|piece| piece.title == title),
            "{title}"
        );
    }
    assert!(outline.to_string().contains("knot 'caf\\xe9'"));
}

#[test]
fn a_cut_file_is_refused_where_reading_stops() {
    let file = everything().encode().unwrap();
    let mut validator = Validator::new();
    for length in 0..file.len() {
        let cut = &file[..length];
        let Answer::Refused(refusal) = validator.check_bytes(cut) else {
            panic!("{length} bytes of {} are readable", file.len());
        };
        let stop = decode(cut).unwrap_err();
        assert_eq!(stop.refusal, refusal);
        assert!(stop.place <= length);
    }
}

#[test]
fn every_changed_byte_is_judged_alike_by_archive_and_decoder() {
    let file = everything().encode().unwrap();
    let mut validator = Validator::new();
    for place in 0..file.len() {
        for value in [0, 1, 3, 17, 200, 255] {
            let mut changed = file.clone();
            changed[place] = value;
            match (validator.check_bytes(&changed), decode(&changed)) {
                (Answer::Refused(refusal), Err(stop)) => assert_eq!(refusal, stop.refusal),
                (Answer::Accepted { .. } | Answer::Breach(_), Ok(story)) => {
                    assert_eq!(story.encode(), Ok(changed));
                }
                (answer, decoded) => panic!("{value} at {place}: {answer}, {decoded:?}"),
            }
        }
    }
}

#[test]
fn names_have_at_most_255_bytes() {
    let longest = "n".repeat(255);
    assert!(Story::new().global(&longest).encode().is_ok());
    let name = Name::from("é".repeat(128));
    let error = Story::new().node(Node::divert(name.clone())).encode();
    assert_eq!(error, Err(EncodeError::NameTooLong { name }));
}

#[test]
fn flows_have_at_most_255_parameters() {
    let with = |count: usize| {
        let parameters = (0..count).map(|number| Name::from(number.to_string()));
        let stitch = Stitch {
            parameters: parameters.collect(),
            ..Stitch::new("s")
        };
        Story::new().flow(Flow::knot("k").stitch(stitch)).encode()
    };
    assert!(with(255).is_ok());
    let (flow, count) = ("s".into(), 256);
    assert_eq!(
        with(256),
        Err(EncodeError::TooManyParameters { flow, count })
    );
}

#[test]
fn errors_are_readable_lines() {
    let name = Name::from("nnn");
    let errors = [
        EncodeError::NameTooLong { name: name.clone() },
        EncodeError::TooManyParameters {
            flow: name,
            count: 300,
        },
        EncodeError::TooDeep,
        EncodeError::FileTooLong { length: 2_000_000 },
    ];
    let lines = errors.map(|error| Box::<dyn std::error::Error>::from(error).to_string());
    assert_eq!(lines[1], "300 parameters (at most 255) in 'nnn'");
    assert_eq!(lines[3], "file of 2000000 bytes (at most 1048576)");
}

#[test]
fn a_validator_is_used_again_for_longer_and_shorter_files() {
    let mut validator = Validator::new();
    for story in [Story::new(), everything(), example(), Story::new()] {
        let file = story.encode().unwrap();
        let again = Validator::new().check_bytes(&file);
        assert_eq!(validator.check_bytes(&file), again);
    }
    assert_eq!(validator.entries().count(), 0);
}

#[test]
fn breaches_and_refusals_are_errors() {
    let check = |story: Story| -> Result<u32, Box<dyn std::error::Error>> {
        Ok(Validator::new().check_story(&story)?.into_result()?)
    };
    assert_eq!(check(example()).unwrap(), 5);
    let error = check(Story::new().node(Node::divert("x"))).unwrap_err();
    assert_eq!(
        error.to_string(),
        "breach 2 at 0: Divert target not found: '-> x'"
    );
    let refused = Validator::new().check_bytes(b"").into_result().unwrap_err();
    assert!(refused.to_string().starts_with("refused 1: "));
}
