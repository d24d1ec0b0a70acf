//! Drives the real executable with --explain on a breach of each of the fifteen rules, and on each refusal of a file.

#![cfg(unix)]

mod command;

use command::Folder;
use qaabireed::{Branch, Call, Choice, Condition, Expression, Flow, Node, Rule, Stitch, Story};

/// A breach of a rule.
struct Example {
    rule: u8,
    story: Story,
    /// What is written of it behind the path.
    lines: String,
}

/// A breach: its rule, a story with it, its place and text, where it lies, and the path to it.
fn example(rule: u8, story: Story, text: &str, container: &str, path: &str) -> Example {
    Example {
        rule,
        story,
        lines: format!("breach {rule} at {text}\n  in {container}\n  path: {path}\n"),
    }
}

/// The story of one flow.
fn story_of(flow: Flow) -> Story {
    Story::new().flow(flow)
}

/// Breaches of targets and calls.
fn targets() -> [Example; 3] {
    let sequence = Node::sequence([vec![], vec![Node::thread("f")]]);
    let dark = Stitch::new("dark").node(Node::tunnel("cellar"));
    let asked = Choice::new().condition(Condition::FunctionCall("hall".into()));
    [
        example(
            1,
            Story::new().node(sequence).flow(Flow::function("f")),
            "13: Function 'f' can only be called as a function, not diverted to",
            "the root",
            "root > Sequence at 0 > branch > ThreadDivert 'f' at 13",
        ),
        example(
            2,
            story_of(Flow::knot("hall").stitch(dark)),
            "31: Divert target not found: '-> cellar'",
            "knot 'hall', stitch 'dark'",
            "knot 'hall' at 0 > stitch 'dark' at 16 > TunnelDivert 'cellar' at 31",
        ),
        example(
            3,
            story_of(Flow::knot("hall").node(asked)),
            "26: 'hall' hasn't been marked as a function, but it's being called as one",
            "knot 'hall'",
            "knot 'hall' at 0 > Choice at 16 > FunctionCall condition 'hall' at 26",
        ),
    ]
}

/// Breaches of the names of parameters and stitches.
fn declared_names() -> [Example; 2] {
    let knot = Flow::knot("hall").stitch(Stitch::new("gold"));
    [
        example(
            4,
            story_of(Flow::function("f").parameter("f")),
            "8: The name 'f' has already been used for a function.",
            "function 'f'",
            "function 'f' at 0 > parameter 'f' at 8",
        ),
        example(
            5,
            Story::new().global("gold").flow(knot),
            "25: The name 'gold' has already been used for a var declaration.",
            "knot 'hall', stitch 'gold'",
            "knot 'hall' at 5 > stitch 'gold' at 21",
        ),
    ]
}

/// Breaches of the names of temps.
fn temps() -> [Example; 2] {
    let temp = |name: &str| Node::temp(name, Expression::Constant);
    let label = Choice::new().label("look");
    [
        example(
            6,
            story_of(Flow::knot("hall").parameter("way").node(temp("way"))),
            "20: The name 'way' has already been used as a parameter name.",
            "knot 'hall'",
            "knot 'hall' at 0 > Assignment (TempSet) 'way' at 20",
        ),
        example(
            7,
            Story::new().node(label).node(temp("look")),
            "19: The name 'look' has already been used for a choice or gather label.",
            "the root",
            "root > Assignment (TempSet) 'look' at 19",
        ),
    ]
}

/// Breaches of divert marks.
fn marks() -> [Example; 2] {
    let onto = Call::new("END").argument(Expression::target("way"));
    let unmarked = Flow::knot("hall").parameter("way");
    let marked = Flow::knot("hall").divert_parameter("way");
    [
        example(
            8,
            story_of(unmarked.node(Node::divert("way"))),
            "20: Since 'way' is used as a variable divert target, it should be marked as: -> way",
            "knot 'hall'",
            "knot 'hall' at 0 > Divert 'way' at 20",
        ),
        example(
            9,
            story_of(marked.node(Node::tunnel(onto))),
            "33: The parameter 'way' is already a divert target; it shouldn't be preceded by '->'.",
            "knot 'hall'",
            "knot 'hall' at 0 > TunnelDivert 'END' at 24 > DivertTarget 'way' at 33",
        ),
    ]
}

/// Breaches of gathers and choices.
fn structure() -> [Example; 2] {
    let again = Node::conditional(Condition::Bool, [Node::gather("a")]);
    let case = Branch::case(Expression::Constant, [Choice::new().into()]);
    [
        example(
            10,
            Story::new().node(Node::gather("a")).node(again),
            "21: A gather point with the same label 'a' already exists in this scope.",
            "the root",
            "root > Conditional at 7 > when true > GatherLabel 'a' at 21",
        ),
        example(
            11,
            Story::new().node(Node::switch(Expression::Constant, [case])),
            "20: Choices with conditions need to explicitly divert afterwards.",
            "the root",
            "root > SwitchConditional at 0 > case > Choice at 20",
        ),
    ]
}

/// Breaches of functions.
fn functions() -> [Example; 3] {
    let function = || Flow::function("f");
    let diverts = Node::conditional(Condition::Bool, [Node::divert("hall")]);
    [
        example(
            12,
            story_of(function().stitch(Stitch::new("s"))),
            "0: Function 'f' may not contain stitches.",
            "function 'f'",
            "function 'f' at 0",
        ),
        example(
            13,
            story_of(function().node(Choice::new())),
            "13: Function 'f' may not contain choices.",
            "function 'f'",
            "function 'f' at 0 > Choice at 13",
        ),
        example(
            14,
            story_of(function().node(diverts)),
            "27: Function 'f' may not contain diverts (found '-> hall').",
            "function 'f'",
            "function 'f' at 0 > Conditional at 13 > when true > Divert 'hall' at 27",
        ),
    ]
}

/// A breach of a variable in a stitch.
fn variables() -> [Example; 1] {
    let sum = Expression::binary(Expression::Constant, Expression::variable("n"));
    let stitch = Stitch::new("dark").node(Node::ReturnExpr(sum));
    let knot = Flow::knot("hall").node(Node::temp("n", Expression::Constant));
    [example(
        15,
        story_of(knot.stitch(stitch)),
        "59: Unresolved variable: n",
        "knot 'hall', stitch 'dark'",
        "knot 'hall' at 0 > stitch 'dark' at 29 > ReturnExpr at 44 > Binary at 49 > Variable 'n' at 59",
    )]
}

/// An example of each rule, in the order of the rules.
fn examples() -> Vec<Example> {
    let mut examples = Vec::from(targets());
    examples.extend(declared_names());
    examples.extend(temps());
    examples.extend(marks());
    examples.extend(structure());
    examples.extend(functions());
    examples.extend(variables());
    let rules: Vec<u8> = examples.iter().map(|example| example.rule).collect();
    assert_eq!(rules, Rule::ALL.map(Rule::number));
    examples
}

#[test]
fn every_rule_is_explained_in_text() {
    for example in examples() {
        let folder = Folder::with(&[("tale", example.story.encode().unwrap())]);
        let ran = folder.run(&["--explain", "tale"]);
        ran.assert(&format!("tale: {}", example.lines), 1);
    }
}

/// The words of an explanation in text, as JSON has them.
fn json_of(lines: &str) -> Vec<String> {
    let path = lines.split("path: ").nth(1).unwrap().trim_end();
    let pieces = path.split(" > ").map(|piece| {
        let titled = piece.split(" at ").next().unwrap();
        match titled.split_once(" '") {
            None => format!("\"piece\":\"{titled}\""),
            Some((title, name)) => {
                let name = name.trim_end_matches('\'');
                format!("\"piece\":\"{title}\",\"name\":\"{name}\"")
            }
        }
    });
    pieces.collect()
}

#[test]
fn every_rule_is_explained_in_json() {
    for Example { rule, story, lines } in examples() {
        let folder = Folder::with(&[("tale", story.encode().unwrap())]);
        let ran = folder.run(&["--json", "--explain", "tale"]);
        let start =
            format!("{{\"path\":\"tale\",\"outcome\":\"breach\",\"rule\":{rule},\"place\":");
        assert!(ran.output.starts_with(&start), "{}", ran.output);
        let (_, explain) = ran.output.split_once("\"explain\":{").unwrap();
        let mut rest = explain;
        for piece in json_of(&lines) {
            let at = rest
                .find(&piece)
                .unwrap_or_else(|| panic!("{piece}: {explain}"));
            rest = &rest[at + piece.len()..];
        }
        assert!(
            !rest.contains("\"piece\":") && rest.ends_with("}]}}\n"),
            "{rest}"
        );
        assert_eq!(ran.status, 1);
    }
}

#[test]
fn a_name_that_is_clashed_with_is_not_the_one_explained() {
    let story = Story::new()
        .global("gold")
        .flow(Flow::knot("hall").parameter("gold"));
    let folder = Folder::with(&[("tale", story.encode().unwrap())]);
    let lines = "\
tale: breach 5 at 16: The name 'gold' has already been used for a var declaration.
  in knot 'hall'
  path: knot 'hall' at 5 > parameter 'gold' at 16
";
    folder.run(&["-e", "tale"]).assert(lines, 1);
}

/// The file of a knot `hall` with a divert, one byte of which is changed.
fn damaged(place: usize, byte: u8) -> Vec<u8> {
    let hall = Flow::knot("hall").node(Node::divert("END"));
    let mut file = story_of(hall).encode().unwrap();
    file[place] = byte;
    file
}

#[test]
fn refused_files_are_explained_where_they_are_read() {
    // The flow: length 0 to 3, flag 4, name 5 to 9, no parameters, list length 12 to 15, divert at
    // 16 with its name from 21 to 24; the trailer from 25 on, with starts at 25, 29, 33 and 37.
    let cases = [
        (44, 9, "refused 2", "41, in the trailer"),
        (25, 1, "refused 3", "25, in the trailer"),
        (37, 200, "refused 3", "37, in the trailer"),
        (0, 99, "refused 4", "0, in the flows"),
        (21, 9, "refused 4", "21, in knot 'hall'"),
        (4, 2, "refused 5", "4, in a flow"),
        (16, 17, "refused 5", "16, in knot 'hall'"),
    ];
    for (place, byte, refused, stopped) in cases {
        let folder = Folder::with(&[("tale", damaged(place, byte))]);
        let ran = folder.run(&["--explain", "tale"]);
        let mut lines = ran.output.lines();
        let first = lines.next().unwrap();
        assert!(first.starts_with(&format!("tale: {refused}: ")), "{first}");
        let stopped = format!("  reading stopped at {stopped}");
        assert_eq!(lines.next(), Some(&stopped[..]));
        assert_eq!(ran.status, 2);
    }
}

#[test]
fn a_stitch_whose_name_cannot_be_read_has_none() {
    let hall = Flow::knot("hall").stitch(Stitch::new("dark"));
    let mut file = Story::new().flow(hall).encode().unwrap();
    file[20] = 255;
    let folder = Folder::with(&[("tale", file)]);
    let ran = folder.run(&["--explain", "tale"]);
    let lines = "  reading stopped at 20, in knot 'hall', a stitch\n  path: knot 'hall' at 0 > stitch at 16\n";
    assert!(ran.output.ends_with(lines), "{}", ran.output);
    let json = folder.run(&["-ej", "tale"]).output;
    let explain = r#""explain":{"place":20,"section":"flows","knot":"hall","path":"#;
    assert!(json.contains(explain), "{json}");
}
