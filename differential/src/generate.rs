//! Random stories: wild ones full of clashes, sound ones, and sound ones with one name exchanged.

use crate::ast::{
    AssignMode, Condition, DynamicString, Expression, Flow, Node, ParsedStory, Sequence,
    SequenceMode,
};
use crate::random::Random;
use crate::story::{self, global, jump, knot, nodes_mut};
use crate::validator::oracle;

/// Names of all sorts, few enough to clash often.
pub const WILD: [&str; 42] = [
    "a", "b", "k", "s", "f", "g", "x", "t", "p", "a", "k", "s", "f", "t", "k.s", "k.a", "s.a",
    "k.s.a", "a.b", ".s", ".a", "k.", ".", "..", "", "", "", "->", "$x", "$", "END", "DONE",
    "->->", "RANDOM", "LIST_MIN", "TURNS", "é", "日本", "k.é", "->k", "END.a", "e\u{301}",
];

const GLOBALS: [&str; 4] = ["gold", "g", "g.h", "größe"];
const EXTERNALS: [&str; 2] = ["ext", "out"];
const FUNCTIONS: [&str; 2] = ["f", "sum"];
const KNOTS: [&str; 4] = ["k", "hall", "k2", "saal"];
const STITCHES: [&str; 4] = ["s", "door", "s2", "tür"];
const GATHERS: [&str; 5] = ["top", "mid", "low", "o.p", "ende"];
const CHOICES: [&str; 3] = ["pick", "take", "pick"];
const TEMPS: [&str; 4] = ["t", "u", "tmp", "z"];
const PARAMETERS: [&str; 4] = ["p", "q", "r", "w"];
const CALLS: [&str; 7] = ["f", "sum", "ext", "out", "RANDOM", "LIST_RANGE", "nobody"];
const VARIABLES: [&str; 4] = ["gold", "g", "free", "t"];
const ARGUMENTS: [&str; 3] = ["k", "hall", "END"];

/// The words that may be called in every story.
pub const BUILTINS: [&str; 21] = [
    "RANDOM",
    "SEED_RANDOM",
    "POW",
    "FLOOR",
    "CEILING",
    "INT",
    "FLOAT",
    "MIN",
    "MAX",
    "READ_COUNT",
    "TURNS_SINCE",
    "CHOICE_COUNT",
    "TURNS",
    "LIST_VALUE",
    "LIST_ALL",
    "LIST_INVERT",
    "LIST_COUNT",
    "LIST_MIN",
    "LIST_MAX",
    "LIST_RANGE",
    "LIST_RANDOM",
];

/// Where the names of a body come from.
#[derive(Clone, Copy)]
struct Pools {
    targets: &'static [&'static str],
    arguments: &'static [&'static str],
    calls: &'static [&'static str],
    temps: &'static [&'static str],
    variables: &'static [&'static str],
    choices: &'static [&'static str],
}

const WILD_POOLS: Pools = Pools {
    targets: &WILD,
    arguments: &WILD,
    calls: &WILD,
    temps: &WILD,
    variables: &WILD,
    choices: &WILD,
};

/// Targets are put in once all names are known.
const SOUND_POOLS: Pools = Pools {
    targets: &[""],
    arguments: &ARGUMENTS,
    calls: &CALLS,
    temps: &TEMPS,
    variables: &VARIABLES,
    choices: &CHOICES,
};

/// Writes the nodes of one body.
struct Writer<'r> {
    random: &'r mut Random,
    pools: Pools,
    /// Nothing that a rule forbids is written.
    sound: bool,
    function: bool,
    /// The gather labels not yet used in this body.
    gathers: Vec<&'static str>,
}

/// A story whose names come from one small pool.
pub fn wild(random: &mut Random) -> ParsedStory {
    let globals = names(random, &WILD, 3).iter().map(|n| global(n)).collect();
    let root = wild_nodes(random, false);
    let flows = (0..random.below(4)).map(|_| wild_flow(random, true));
    let flows = flows.collect();
    let mut story = ParsedStory::new(globals, root, flows);
    story.external_functions = names(random, &WILD, 2);
    story
}

/// A flow or stitch of a wild story.
fn wild_flow(random: &mut Random, may_have_stitches: bool) -> Flow {
    let function = random.once_in(4);
    let mut flow = knot(random.word(&WILD), wild_nodes(random, function));
    flow.is_function = may_have_stitches && function;
    flow.parameters = names(random, &WILD, 3);
    flow.divert_parameters = names(random, &WILD, 2);
    if may_have_stitches && !random.once_in(3) && !(function && random.once_in(2)) {
        let stitches = (0..random.below(3)).map(|_| wild_flow(random, false));
        flow.children = stitches.collect();
    }
    flow
}

/// The nodes of a wild body; half of the bodies have hardly any.
fn wild_nodes(random: &mut Random, function: bool) -> Vec<Node> {
    let count = if random.once_in(2) { 2 } else { 6 };
    let mut writer = Writer {
        random,
        pools: WILD_POOLS,
        sound: false,
        function,
        gathers: Vec::new(),
    };
    writer.nodes(count, 3, false)
}

/// Under `most` names of a pool.
fn names(random: &mut Random, pool: &[&str], most: usize) -> Vec<String> {
    let count = random.below(most);
    (0..count).map(|_| random.word(pool).to_string()).collect()
}

/// Names of a pool, from its start, none of them twice.
fn distinct(random: &mut Random, pool: &[&str], least: usize) -> Vec<String> {
    let count = least + random.below(pool.len() + 1 - least);
    pool[..count].iter().map(|name| name.to_string()).collect()
}

/// A story that breaks no rule, with a function, a global, and a knot that has a stitch.
pub fn sound(random: &mut Random) -> ParsedStory {
    let globals = distinct(random, &GLOBALS, 1);
    let root = sound_nodes(random, false);
    let mut story = ParsedStory::new(globals.iter().map(|n| global(n)).collect(), root, vec![]);
    story.external_functions = distinct(random, &EXTERNALS, 0);
    for name in distinct(random, &FUNCTIONS, 1) {
        let mut flow = sound_flow(random, &name, true);
        flow.is_function = true;
        story.flows.push(flow);
    }
    for (number, name) in distinct(random, &KNOTS[..3], 1).iter().enumerate() {
        let mut flow = sound_flow(random, name, false);
        for stitch in distinct(random, &STITCHES[..3], usize::from(number == 0)) {
            flow.children.push(sound_flow(random, &stitch, false));
        }
        let place = random.below(story.flows.len() + 1);
        story.flows.insert(place, flow);
    }
    fill_targets(random, &mut story);
    story
}

/// A flow or stitch of a sound story.
fn sound_flow(random: &mut Random, name: &str, function: bool) -> Flow {
    let mut flow = knot(name, sound_nodes(random, function));
    flow.parameters = distinct(random, &PARAMETERS[..2], 0);
    flow.divert_parameters = distinct(random, &PARAMETERS[..2], 0);
    flow
}

/// The nodes of a sound body.
fn sound_nodes(random: &mut Random, function: bool) -> Vec<Node> {
    let mut gathers = GATHERS.to_vec();
    gathers.truncate(random.below(GATHERS.len() + 1));
    let mut writer = Writer {
        random,
        pools: SOUND_POOLS,
        sound: true,
        function,
        gathers,
    };
    writer.nodes(4, 2, false)
}

/// Gives every jump of a sound story a target that is found.
fn fill_targets(random: &mut Random, story: &mut ParsedStory) {
    let functions = story.flows.iter().filter(|flow| flow.is_function);
    let functions: Vec<String> = functions.map(|flow| flow.name.clone()).collect();
    let mut targets: Vec<String> = ["", "->", "$x", "END"].map(str::to_string).to_vec();
    for spelling in oracle::valid_targets(story) {
        let endings = spelling.match_indices('.').map(|(at, _)| at + 1);
        targets.extend(endings.map(|at| spelling[at..].to_string()));
        targets.push(spelling);
    }
    targets.retain(|target| !functions.contains(target));
    fill_body(random, &mut story.root, &targets, &[]);
    for flow in &mut story.flows {
        fill_flow(random, flow, &targets);
        for stitch in &mut flow.children {
            fill_flow(random, stitch, &targets);
        }
    }
}

/// Leaves out the flow's own parameters that lack the mark.
fn fill_flow(random: &mut Random, flow: &mut Flow, targets: &[String]) {
    let mut barred = flow.parameters.clone();
    barred.retain(|name| !flow.divert_parameters.contains(name));
    let function = flow.is_function;
    fill_body(random, &mut flow.nodes, targets, &barred);
    if function {
        nodes_mut(&mut flow.nodes, &mut |node| {
            if let Node::Divert(divert) = node {
                divert.target = random.word(&["END", "DONE"]).to_string();
            }
        });
    }
}

/// Gives every jump of a body a target.
fn fill_body(random: &mut Random, nodes: &mut [Node], targets: &[String], barred: &[String]) {
    nodes_mut(nodes, &mut |node| {
        if let Some(target) = jump_target_mut(node) {
            *target = random.pick(targets).clone();
            while barred.contains(target) {
                *target = random.pick(targets).clone();
            }
        }
    });
}

/// The target of a node of kind 3, 4 or 5.
fn jump_target_mut(node: &mut Node) -> Option<&mut String> {
    match node {
        Node::Divert(divert) | Node::ThreadDivert(divert) => Some(&mut divert.target),
        Node::TunnelDivert { target, .. } => Some(target),
        _ => None,
    }
}

/// A sound story in which up to two names are exchanged for others of the story or the wild pool.
pub fn renamed(random: &mut Random) -> ParsedStory {
    let mut story = sound(random);
    for _ in 0..1 + random.below(2) {
        exchange(random, &mut story, |random| random.word(&WILD).to_string());
    }
    story
}

/// Exchanges a name of a story, if it has one, for another of its names or, once in three times, a foreign one.
pub fn exchange(
    random: &mut Random,
    story: &mut ParsedStory,
    foreign: impl FnOnce(&mut Random) -> String,
) {
    let mut all = Vec::new();
    story::names_mut(story, &mut |name| all.push(name.clone()));
    if all.is_empty() {
        return;
    }
    let new = match random.once_in(3) {
        true => foreign(random),
        false => random.pick(&all).clone(),
    };
    let chosen = random.below(all.len());
    let mut number = 0;
    story::names_mut(story, &mut |name| {
        if number == chosen {
            *name = new.clone();
        }
        number += 1;
    });
}

impl Writer<'_> {
    /// Fewer than `most` nodes, with so many levels of lists below them.
    fn nodes(&mut self, most: usize, levels: usize, branch: bool) -> Vec<Node> {
        let count = self.random.below(most);
        (0..count).map(|_| self.node(levels, branch)).collect()
    }

    /// One node of a random kind.
    fn node(&mut self, levels: usize, branch: bool) -> Node {
        match self.random.below(17) {
            kind @ 3..=5 => self.jump(kind as u8),
            8 if levels > 0 => self.conditional(levels - 1),
            9 if levels > 0 => self.switch(levels - 1),
            10 if levels > 0 => self.sequence(levels - 1),
            13 => self.assignment(),
            14 if levels > 0 && !(self.sound && self.function) => self.choice(levels - 1, branch),
            15 => self.gather(),
            kind => self.small_node(kind),
        }
    }

    /// A node without lists.
    fn small_node(&mut self, kind: usize) -> Node {
        match kind {
            1 => Node::Newline,
            2 => Node::OutputExpression(self.expression(2)),
            6 => Node::TunnelReturn,
            7 => Node::TunnelOnwardsWithTarget {
                target: self.random.word(&WILD).to_string(),
                args: self.expressions(2),
            },
            11 => Node::ReturnBool(self.random.once_in(2)),
            12 => Node::ReturnExpr(self.expression(2)),
            16 => Node::VoidCall {
                name: self.random.word(self.pools.calls).to_string(),
                args: self.expressions(2),
            },
            _ => self.plain(),
        }
    }

    /// One of the five nodes that the file stores as plain.
    fn plain(&mut self) -> Node {
        match self.random.below(5) {
            0 => Node::Text("Once upon a time".to_string()),
            1 => Node::Tag(DynamicString::default()),
            2 => Node::Glue,
            3 => Node::GatherPoint,
            _ => Node::ReturnVoid,
        }
    }

    /// A divert, tunnel or thread.
    fn jump(&mut self, kind: u8) -> Node {
        let target = self.random.word(self.pools.targets);
        let arguments = self.expressions(2);
        jump(kind, target, arguments)
    }

    /// A conditional, with or without a second branch.
    fn conditional(&mut self, levels: usize) -> Node {
        Node::Conditional {
            condition: self.condition(),
            when_true: self.nodes(3, levels, true),
            when_false: match self.random.once_in(2) {
                true => Some(self.nodes(3, levels, true)),
                false => None,
            },
        }
    }

    /// A switch of up to two branches.
    fn switch(&mut self, levels: usize) -> Node {
        let value = self.expression(1);
        let mut branches = Vec::new();
        for _ in 0..self.random.below(3) {
            let case = match self.random.once_in(3) {
                true => None,
                false => Some(self.expression(1)),
            };
            branches.push((case, self.nodes(3, levels, true)));
        }
        Node::SwitchConditional { value, branches }
    }

    /// A sequence of up to two branches.
    fn sequence(&mut self, levels: usize) -> Node {
        let count = self.random.below(3);
        let branches = (0..count).map(|_| self.nodes(3, levels, false)).collect();
        let mode = *self
            .random
            .pick(&[SequenceMode::Cycle, SequenceMode::Shuffle]);
        Node::Sequence(Sequence { mode, branches })
    }

    /// An assignment of any mode.
    fn assignment(&mut self) -> Node {
        let mode = match self.random.below(5) {
            0 => AssignMode::Set,
            1 => AssignMode::AddAssign,
            2 => AssignMode::SubtractAssign,
            _ => AssignMode::TempSet,
        };
        let pool = match mode {
            AssignMode::TempSet => self.pools.temps,
            _ => self.pools.variables,
        };
        Node::Assignment {
            variable_name: self.random.word(pool).to_string(),
            expression: self.expression(2),
            mode,
        }
    }

    /// A choice; in a branch of a sound story it leaves.
    fn choice(&mut self, levels: usize, branch: bool) -> Node {
        let label = match self.random.once_in(3) {
            true => Some(self.random.word(self.pools.choices)),
            false => None,
        };
        let count = self.random.below(3);
        let conditions = (0..count).map(|_| self.condition()).collect();
        let mut body = self.nodes(3, levels, false);
        if branch && (self.sound || self.random.once_in(2)) {
            let kind = *self.random.pick(&[3, 6, 7, 11, 12]);
            body.push(match kind {
                3 => self.jump(3),
                _ => self.small_node(kind),
            });
        }
        if self.random.once_in(3) {
            body.push(Node::Newline);
        }
        story::conditional_choice(label, conditions, body)
    }

    /// A gather; in a sound story its label is new in this body.
    fn gather(&mut self) -> Node {
        match self.sound {
            false => story::gather(self.random.word(&WILD)),
            true => match self.gathers.pop() {
                Some(label) => story::gather(label),
                None => Node::Newline,
            },
        }
    }

    /// A condition of any kind.
    fn condition(&mut self) -> Condition {
        match self.random.below(3) {
            0 => Condition::Bool(false),
            1 => Condition::FunctionCall(self.random.word(self.pools.calls).to_string()),
            _ => Condition::Expression(self.expression(2)),
        }
    }

    /// Fewer than three expressions.
    fn expressions(&mut self, levels: usize) -> Vec<Expression> {
        let count = self.random.below(3);
        (0..count).map(|_| self.expression(levels)).collect()
    }

    /// An expression of any kind.
    fn expression(&mut self, levels: usize) -> Expression {
        match self.random.below(if levels > 0 { 8 } else { 4 }) {
            0 => self.constant(),
            1 | 2 => Expression::Variable(self.variable()),
            3 => Expression::DivertTarget(self.random.word(self.pools.arguments).to_string()),
            4 => Expression::Negate(Box::new(self.expression(levels - 1))),
            5 => Expression::Not(Box::new(self.expression(levels - 1))),
            6 => Expression::FunctionCall {
                name: self.random.word(self.pools.calls).to_string(),
                args: self.expressions(levels - 1),
            },
            _ => story::binary(self.expression(levels - 1), self.expression(levels - 1)),
        }
    }

    /// A variable's name; in a sound story seldom one that may be a temp of the knot.
    fn variable(&mut self) -> String {
        let pool = match self.sound && !self.random.once_in(8) {
            true => &VARIABLES[..3],
            false => self.pools.variables,
        };
        self.random.word(pool).to_string()
    }

    /// One of the six expressions that the file stores as constant.
    fn constant(&mut self) -> Expression {
        match self.random.below(6) {
            0 => Expression::Bool(true),
            1 => Expression::Int(7),
            2 => Expression::Float(0.5),
            3 => Expression::Str("k".to_string()),
            4 => Expression::ListItems(vec!["a".to_string()]),
            _ => Expression::EmptyList,
        }
    }
}
