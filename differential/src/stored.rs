//! The stored input and output of the programs that run under the gate: `reader_runs`, `vectors` and `lookup_runs`.

pub mod kept;
pub mod lookups;
pub mod reader;
pub mod replay;
pub mod whole;

/// What a program reads from standard input, and what it must write.
#[derive(Debug, Clone, Default, PartialEq, Eq)]
pub struct Stored {
    pub input: Vec<u8>,
    /// None where the program also writes about stories that it builds itself.
    pub output: Option<Vec<u8>>,
}

/// The programs that have stored files.
pub const PROGRAMS: [&str; 3] = ["reader_runs", "vectors", "lookup_runs"];

/// The stored list.
const LIST: &str = include_str!("../vectors.txt");

/// The files of a program, or nothing where no program has this name.
pub fn stored(program: &str) -> Option<Stored> {
    match program {
        "reader_runs" => Some(reader::stored()),
        "vectors" => Some(replay::stored(LIST)),
        "lookup_runs" => Some(lookups::stored(LIST)),
        _ => None,
    }
}

/// A number in two bytes, little-endian.
fn short(number: usize) -> [u8; 2] {
    u16::try_from(number)
        .expect("a stored length has 16 bits")
        .to_le_bytes()
}
