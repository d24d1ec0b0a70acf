//! Compares the original validator with a second implementation of the flat file's definition.

/// The original's syntax tree, unchanged.
pub mod ast {
    include!(concat!(env!("INK_VALIDATE_FOLDER"), "/compiler/src/ast.rs"));
}

/// The original's error type, unchanged.
pub mod error {
    include!(concat!(
        env!("INK_VALIDATE_FOLDER"),
        "/compiler/src/error.rs"
    ));
}

pub mod aimed;
pub mod cases;
pub mod collisions;
pub mod compare;
pub mod damage;
pub mod decode;
pub mod encode;
pub mod generate;
pub mod layout;
#[cfg(qaabireed_library)]
pub mod library;
pub mod limits;
pub mod random;
pub mod second;
pub mod shapes;
pub mod stored;
pub mod story;
pub mod subject;
pub mod tally;
pub mod validator;
pub mod vectors;
