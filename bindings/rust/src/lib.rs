//! Checks Ink stories with Qaabireed, a validator of which every function is proved.
//!
//! A story is built as a tree, encoded to the flat story file, and checked:
//!
//! ```
//! use qaabireed::{Answer, Flow, Node, Story, Validator};
//!
//! let story = Story::new()
//!     .node(Node::divert("hall"))
//!     .flow(Flow::knot("hall").node(Node::divert("cellar")));
//! let mut validator = Validator::new();
//! match validator.check_story(&story)? {
//!     Answer::Accepted { .. } => unreachable!("there is no cellar"),
//!     Answer::Breach(breach) => {
//!         assert_eq!(breach.rule.number(), 2);
//!         assert_eq!(breach.to_string(), "Divert target not found: '-> cellar'");
//!     }
//!     Answer::Refused(_) => unreachable!("an encoded story is readable"),
//! }
//! # Ok::<(), qaabireed::EncodeError>(())
//! ```
//!
//! Bytes that come from elsewhere are checked as they are, with [`Validator::check_bytes`] or, over
//! buffers that the caller lends, with [`check`]. No bytes are too damaged for it: what cannot be
//! read is refused with a number.

mod answer;
mod decode;
mod encode;
mod entry;
pub mod layout;
mod library;
mod name;
mod outline;
mod rule;
mod story;
mod validator;

/// The page on the bindings, whose program is run by the tests.
#[cfg(doctest)]
#[doc = include_str!("../../README.md")]
struct Page;

pub use answer::{Answer, Breach, Found, Lookup, Rejection};
pub use decode::{Stop, decode};
pub use encode::EncodeError;
pub use entry::{Entry, entries};
pub use library::{check, lookup};
pub use name::{Name, shown};
pub use outline::{Outline, Piece, Sort, outline};
pub use rule::{Refusal, Rule};
pub use story::{
    AssignMode, Branch, Call, Choice, Condition, Expression, Flow, Node, Stitch, Story,
};
pub use validator::Validator;
