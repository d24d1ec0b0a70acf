//! What the original says of a story: its verdict, each of its steps alone, its targets.

use super::*;

/// The text of the original's error, or none when it accepts.
pub fn verdict(story: &ParsedStory) -> Option<String> {
    text(validate(story))
}

/// The set of targets that the original takes for valid.
pub fn valid_targets(story: &ParsedStory) -> BTreeSet<String> {
    ValidationContext::build(story).valid_targets
}

/// What the original says of one divert target: its context is built, then the target checked.
pub fn target(story: &ParsedStory, target: &str) -> Result<(), CompilerError> {
    ValidationContext::build(story).check_target(target)
}

/// The text of the original's error for one divert target, or none when it passes.
pub fn target_texts(story: &ParsedStory, targets: &[&str]) -> Vec<Option<String>> {
    let context = ValidationContext::build(story);
    let answer = |target: &&str| text(context.check_target(target));
    targets.iter().map(answer).collect()
}

/// The first error of every step instance, in running order, whatever the steps before it found.
pub fn step_texts(story: &ParsedStory) -> Vec<Option<String>> {
    let context = ValidationContext::build(story);
    let mut texts = Vec::new();
    root_steps(&context, story.root(), &mut texts);
    for flow in story.flows() {
        flow_steps(&context, flow, &mut texts);
        for stitch in &flow.children {
            stitch_steps(&context, flow, stitch, &mut texts);
        }
        texts.push(text(
            context.validate_no_duplicate_gather_labels(&flow.nodes),
        ));
    }
    texts.push(text(
        context.validate_no_duplicate_gather_labels(story.root()),
    ));
    texts
}

/// Steps 1 to 4.
fn root_steps(context: &ValidationContext, root: &[Node], texts: &mut Vec<Option<String>>) {
    let labels = labels_of([root]);
    texts.push(text(context.validate_temp_names(
        root,
        &BTreeSet::new(),
        &labels,
    )));
    texts.push(text(context.validate_nodes_diverts(root, "")));
    texts.push(text(context.validate_nodes_function_calls(root)));
    texts.push(text(context.validate_no_choice_in_conditional(root)));
}

/// Steps 5 to 11.
fn flow_steps(context: &ValidationContext, flow: &Flow, texts: &mut Vec<Option<String>>) {
    let nodes = &flow.nodes;
    let parameters = set(&flow.parameters);
    texts.push(text(context.validate_function_purity(flow)));
    texts.push(text(context.validate_flow_parameter_names(flow)));
    texts.push(text(context.validate_temp_names(
        nodes,
        &parameters,
        &knot_labels(flow),
    )));
    texts.push(text(context.validate_nodes_diverts(nodes, &flow.name)));
    texts.push(text(context.validate_nodes_function_calls(nodes)));
    texts.push(text(context.validate_no_choice_in_conditional(nodes)));
    let marks = set(&flow.divert_parameters);
    texts.push(text(context.validate_nodes_variable_divert_targets(
        nodes,
        &parameters,
        &marks,
    )));
}

/// Steps 12 to 18.
fn stitch_steps(
    context: &ValidationContext,
    flow: &Flow,
    stitch: &Flow,
    texts: &mut Vec<Option<String>>,
) {
    let nodes = &stitch.nodes;
    let parameters = set(&stitch.parameters);
    texts.push(text(context.validate_stitch_name(stitch)));
    texts.push(text(context.validate_temp_names(
        nodes,
        &parameters,
        &knot_labels(flow),
    )));
    texts.push(text(context.validate_nodes_diverts(nodes, &stitch.name)));
    texts.push(text(context.validate_nodes_function_calls(nodes)));
    let marks = set(&stitch.divert_parameters);
    texts.push(text(context.validate_nodes_variable_divert_targets(
        nodes,
        &parameters,
        &marks,
    )));
    let scope = ScopeInfo {
        forbidden: forbidden(flow, stitch),
    };
    texts.push(text(context.validate_nodes_vars(nodes, &scope)));
    texts.push(text(context.validate_no_duplicate_gather_labels(nodes)));
}

/// The names that the original forbids in a stitch.
fn forbidden(flow: &Flow, stitch: &Flow) -> BTreeSet<String> {
    let mut own = collect_temps_from_nodes(&stitch.nodes);
    own.extend(stitch.parameters.iter().cloned());
    let mut names = collect_temps_from_nodes(&flow.nodes);
    names.extend(flow.parameters.iter().cloned());
    names.difference(&own).cloned().collect()
}

/// The labels of a knot and all its stitches, without prefix.
fn knot_labels(flow: &Flow) -> BTreeSet<String> {
    let stitches = flow.children.iter().map(|stitch| stitch.nodes.as_slice());
    labels_of([flow.nodes.as_slice()].into_iter().chain(stitches))
}

/// The labels of some bodies, without prefix.
fn labels_of<'a>(bodies: impl IntoIterator<Item = &'a [Node]>) -> BTreeSet<String> {
    let mut labels = BTreeSet::new();
    for nodes in bodies {
        collect_labels_from_nodes(nodes, "", &mut labels);
    }
    labels
}

/// A list of names as a set.
fn set(names: &[String]) -> BTreeSet<String> {
    names.iter().cloned().collect()
}

/// The message of an error.
fn text(result: Result<(), CompilerError>) -> Option<String> {
    result.err().map(|error| error.message().to_string())
}
