//! What is checked: a file, and the tree that the original checks.

use differential::ast::ParsedStory;
use differential::encode::encode;

/// One file; a damaged one has no tree.
pub struct Sample {
    pub file: Vec<u8>,
    pub story: Option<ParsedStory>,
    /// The target that is looked up; without one the file is checked.
    pub target: Option<String>,
}

impl Sample {
    /// The sample of a story that is checked.
    pub fn of(story: ParsedStory) -> Sample {
        let file = encode(&story).expect("stories are built within the limits");
        Sample {
            file,
            story: Some(story),
            target: None,
        }
    }

    /// The sample of a damaged file.
    pub fn damaged(file: Vec<u8>) -> Sample {
        Sample {
            file,
            story: None,
            target: None,
        }
    }

    /// The sample of a story in which a target is looked up.
    pub fn lookup(story: ParsedStory, target: &str) -> Sample {
        Sample {
            target: Some(target.to_string()),
            ..Sample::of(story)
        }
    }
}
