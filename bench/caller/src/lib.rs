//! Calls of the archive over lent buffers, and the time that work takes.

pub mod clock;
pub mod lent;
pub mod repeat;
