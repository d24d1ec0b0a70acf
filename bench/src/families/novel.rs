//! Novels: chapters with scenes, as a writer divides them.

use differential::ast::{Condition, Expression, Flow, Node, ParsedStory};
use differential::random::Random;
use differential::story::{
    assign, binary, call, choice, conditional, conditional_choice, constant, divert, function,
    gather, jump, knot, output, sequence, temp, variable, void_call,
};

/// The globals that chapters ask about.
const GLOBALS: [&str; 12] = [
    "gold",
    "health",
    "courage",
    "met_the_smith",
    "has_lantern",
    "day",
    "hour",
    "reputation",
    "weather",
    "last_place",
    "companion",
    "bridge_is_down",
];

/// The functions that chapters call.
const FUNCTIONS: [&str; 4] = ["roll", "spend", "describe_weather", "is_night"];

/// Places that chapters and scenes are named after.
const PLACES: [&str; 8] = [
    "market",
    "harbour",
    "old_mill",
    "castle_gate",
    "forest_path",
    "inn",
    "crypt",
    "river_bank",
];

/// A novel of so many chapters, with its functions first.
pub fn novel(chapters: usize) -> ParsedStory {
    let functions = FUNCTIONS.iter().map(|name| small_function(name));
    let chapters = (0..chapters).map(|number| chapter(number, chapters));
    story_of(opening(), functions.chain(chapters).collect())
}

/// The story of a root and flows, with the globals of all novels.
pub fn story_of(root: Vec<Node>, flows: Vec<Flow>) -> ParsedStory {
    let story = differential::story::story(root, flows);
    story
        .with_globals(&GLOBALS)
        .with_externals(&["play_sound", "save_game"])
}

/// What stands before the first chapter.
pub fn opening() -> Vec<Node> {
    let mut nodes = lines(3);
    nodes.push(void_call("play_sound", vec![constant()]));
    nodes.push(divert("END"));
    nodes
}

/// So many lines of text.
pub fn lines(count: usize) -> Vec<Node> {
    let line = "The rain had not stopped since they left the harbour behind them.";
    (0..2 * count)
        .map(|half| match half % 2 {
            0 => Node::Text(line.to_string()),
            _ => Node::Newline,
        })
        .collect()
}

/// A function that computes something and returns it.
fn small_function(name: &str) -> Flow {
    let nodes = vec![
        temp("sum"),
        conditional(vec![Node::ReturnExpr(variable("sum"))], None),
        Node::ReturnExpr(binary(variable("sum"), call("RANDOM", vec![constant()]))),
    ];
    function(name, nodes).with_parameters(&["amount"])
}

/// The name of a chapter.
fn chapter_name(number: usize) -> String {
    format!("{}_{number}", PLACES[number % PLACES.len()])
}

/// The name of a scene, which only its chapter has.
fn scene_name(chapter: usize, scene: usize) -> String {
    format!("scene_{chapter}_{scene}")
}

/// One chapter: text, choices with conditions, a gather, scenes.
fn chapter(number: usize, chapters: usize) -> Flow {
    let mut random = Random::new(7, number as u64);
    let next = chapter_name((number + 1) % chapters);
    let far = chapter_name(random.below(chapters));
    let mut nodes = lines(6);
    nodes.push(temp("mood"));
    nodes.push(output(call(FUNCTIONS[number % 4], vec![variable("mood")])));
    nodes.push(conditional(lines(2), Some(vec![divert(&far)])));
    nodes.push(decision(&mut random, number, 0));
    nodes.push(decision(&mut random, number, 1));
    nodes.push(gather(&format!("afterwards_{number}")));
    nodes.extend(lines(3));
    nodes.push(sequence(vec![lines(1), lines(1), vec![]]));
    nodes.push(divert(&next));
    let scenes = (0..3).map(|scene| self::scene(&mut random, number, scene));
    knot(&chapter_name(number), nodes).with_stitches(scenes.collect())
}

/// A choice with a condition, a label and a way on: to a scene by its short or its full name.
fn decision(random: &mut Random, chapter: usize, scene: usize) -> Node {
    let target = match random.once_in(2) {
        true => scene_name(chapter, scene),
        false => format!("{}.{}", chapter_name(chapter), scene_name(chapter, scene)),
    };
    let asked = Expression::Variable(random.word(&GLOBALS).to_string());
    let conditions = vec![Condition::Expression(binary(asked, constant()))];
    let mut body = lines(2);
    body.push(divert(&target));
    conditional_choice(Some(&format!("choose_{chapter}_{scene}")), conditions, body)
}

/// A scene: text, an assignment, choices and a way back.
fn scene(random: &mut Random, chapter: usize, number: usize) -> Flow {
    let mut nodes = lines(5);
    nodes.push(assign(
        differential::ast::AssignMode::Set,
        random.word(&GLOBALS),
    ));
    nodes.push(void_call("spend", vec![variable("gold"), constant()]));
    nodes.push(output(variable(random.word(&GLOBALS))));
    nodes.push(jump(4, &scene_name(chapter, (number + 1) % 3), vec![]));
    nodes.push(choice(
        None,
        vec![Node::Newline, divert(&chapter_name(chapter))],
    ));
    nodes.push(choice(None, vec![divert(&format!("afterwards_{chapter}"))]));
    nodes.push(divert("DONE"));
    knot(&scene_name(chapter, number), nodes)
}
