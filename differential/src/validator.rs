//! The original validator, included unchanged, in the module that its files are parts of.

use crate::ast::{AssignMode, Condition, Divert, Expression, Flow, Node, ParsedStory};
use crate::error::CompilerError;
use std::collections::{BTreeMap, BTreeSet};

pub mod oracle;

include!(concat!(
    env!("INK_VALIDATE_FOLDER"),
    "/compiler/src/validator/context.rs"
));
include!(concat!(
    env!("INK_VALIDATE_FOLDER"),
    "/compiler/src/validator/diverts.rs"
));
include!(concat!(
    env!("INK_VALIDATE_FOLDER"),
    "/compiler/src/validator/structure.rs"
));
include!(concat!(
    env!("INK_VALIDATE_FOLDER"),
    "/compiler/src/validator/symbols.rs"
));
include!(concat!(
    env!("INK_VALIDATE_FOLDER"),
    "/compiler/src/validator/variables.rs"
));
