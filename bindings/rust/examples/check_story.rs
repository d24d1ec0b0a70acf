//! Builds a story, checks it, and says what a divert would reach.

use qaabireed::{Choice, Flow, Node, Stitch, Story, Validator};

fn main() -> Result<(), Box<dyn std::error::Error>> {
    let hall = Flow::knot("hall")
        .node(Choice::new().label("look").node(Node::divert("dark")))
        .stitch(Stitch::new("dark").node(Node::divert("cellar")));
    let story = Story::new().node(Node::divert("hall")).flow(hall);
    let file = story.encode()?;
    let mut validator = Validator::new();
    println!("{}", validator.check_bytes(&file));
    println!("-> dark: {}", validator.lookup_bytes(&file, b"dark"));
    Ok(())
}
