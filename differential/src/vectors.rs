//! The stored list: small inputs with the answers that every validator must give.

mod examples;
mod gaps;
mod lookups;
mod order;
mod refusals;
mod rules;
mod sample;
mod searches;

use crate::ast::ParsedStory;
use crate::encode::encode;
use crate::second::{self, Answer, Lookup, NONE, Report};
use crate::tally::{hex, title};

/// The longest input that the program reads.
pub const LONGEST_INPUT: usize = 4096;

/// What the writer of a vector says that the answer is.
#[derive(Debug, Clone, Copy, PartialEq, Eq)]
pub enum Expected {
    Accepted,
    /// Rule and step.
    Breach(u8, u8),
    Refused(u8),
}

/// One input of the program with the answer expected.
#[derive(Debug, Clone)]
pub struct Vector {
    pub name: String,
    /// Where it came from.
    pub from: String,
    pub input: Vec<u8>,
    pub expected: Expected,
}

/// One call with lent buffers of given lengths.
#[derive(Debug, Clone)]
pub struct Call {
    pub vector: Vector,
    pub index: usize,
    pub message: usize,
}

/// One lookup with lent index.
#[derive(Debug, Clone)]
pub struct LookupVector {
    pub name: String,
    pub from: String,
    pub input: Vec<u8>,
    pub index: usize,
    pub target: Vec<u8>,
    pub expected: Result<Lookup, u8>,
}

/// Vectors as they are put together.
#[derive(Default)]
struct Shelf {
    from: String,
    vectors: Vec<Vector>,
}

impl Shelf {
    /// An empty shelf whose vectors all came from here.
    fn of(from: &str) -> Self {
        Shelf {
            from: from.to_string(),
            vectors: Vec::new(),
        }
    }

    /// Adds a story.
    fn story(&mut self, name: &str, story: ParsedStory, expected: Expected) {
        let file = encode(&story).expect("listed stories are within the limits");
        self.bytes(name, file, expected);
    }

    /// Adds any bytes.
    fn bytes(&mut self, name: &str, input: Vec<u8>, expected: Expected) {
        self.vectors.push(Vector {
            name: name.to_string(),
            from: self.from.clone(),
            input,
            expected,
        });
    }
}

/// All vectors of the program, in order.
pub fn vectors() -> Vec<Vector> {
    let mut all = Vec::new();
    all.extend(examples::proved());
    all.extend(examples::run());
    all.extend(examples::plausible_and_false());
    all.extend(rules::pairs());
    all.extend(rules::visited_calls());
    all.extend(rules::visited_variables());
    all.extend(rules::visited_lists());
    all.extend(rules::leaving());
    all.extend(rules::scopes());
    all.extend(searches::targets());
    all.extend(searches::calls());
    all.extend(searches::names());
    all.extend(order::order());
    all.extend(gaps::gaps());
    all.extend(readings());
    all.extend(sample::sample());
    all
}

/// The vectors on refusals 1 to 6, in order.
pub fn readings() -> Vec<Vector> {
    let mut all = Vec::new();
    all.extend(refusals::header());
    all.extend(refusals::cut());
    all.extend(refusals::meanings());
    all.extend(refusals::depth());
    all.extend(refusals::first_met());
    all
}

/// All calls with lent lengths, in order.
pub fn calls() -> Vec<Call> {
    refusals::lent()
}

/// All lookups, in order.
pub fn lookups() -> Vec<LookupVector> {
    lookups::lookups()
}

/// The expectation that an answer meets.
pub fn expectation(answer: &Answer) -> Expected {
    match answer {
        Answer::Refused(refusal) => Expected::Refused(*refusal),
        Answer::Checked(Report { breach: None, .. }) => Expected::Accepted,
        Answer::Checked(Report {
            breach: Some(breach),
            ..
        }) => Expected::Breach(breach.rule, breach.step),
    }
}

const HEAD: &str = "\
# Answers of the validator, written by `differential/list`; do not edit.
# Blocks are separated by an empty line. A block's first line gives its kind and name:
# `vector`: the program's input and the line that it prints;
# `call`: a check with lent buffers of INDEX numbers and MESSAGE bytes (the line is what a program would print);
# `lookup`: a lookup with a lent index; `answer` has every entry that may be named.
# Bytes are hexadecimal; a word alone has none. In `line`, \\xNN stands for a byte outside 20 to 7e and for the backslash.
# `entries`, `names` and `index` are there where nothing is refused; - stands for 4294967295, the number for none.
";

/// The whole list as text.
pub fn text() -> String {
    let mut blocks = vec![HEAD.to_string()];
    blocks.extend(vectors().iter().map(vector_block));
    blocks.extend(calls().iter().map(call_block));
    blocks.extend(lookups().iter().map(lookup_block));
    blocks.join("\n")
}

/// A program's vector as lines.
fn vector_block(vector: &Vector) -> String {
    let index = 3 * vector.input.len().saturating_sub(20);
    let answer = second::check(&vector.input, index, second::MESSAGE);
    let head = format!("vector {}\nfrom {}\n", vector.name, vector.from);
    let input = bytes_line("input", &vector.input);
    head + &input + &answer_lines(&answer)
}

/// A call as lines.
fn call_block(call: &Call) -> String {
    let vector = &call.vector;
    let answer = second::check(&vector.input, call.index, call.message);
    let head = format!("call {}\nfrom {}\n", vector.name, vector.from);
    let lent = format!("lent {} {}\n", call.index, call.message);
    let input = bytes_line("input", &vector.input);
    head + &lent + &input + &answer_lines(&answer)
}

/// The line that is printed, and the result's numbers.
fn answer_lines(answer: &Answer) -> String {
    let line = format!("line {}\n", escaped(&second::line(answer)));
    let Answer::Checked(report) = answer else {
        return line;
    };
    let names = report.breach.map_or([NONE; 2], |breach| breach.names);
    let mut lines = line;
    lines += &format!("entries {}\n", report.entries.len());
    lines += &format!("names {}\n", numbers(&names));
    if !report.entries.is_empty() {
        lines += &format!("index {}\n", numbers(&report.entries.concat()));
    }
    lines
}

/// A lookup as lines.
fn lookup_block(lookup: &LookupVector) -> String {
    let answer = match &lookup.expected {
        Err(refusal) => format!("refused {refusal}"),
        Ok(found @ (Lookup::Exact(entries) | Lookup::Ending(entries))) => {
            format!("{} {}", title(found), numbers(entries))
        }
        Ok(found) => title(found).to_string(),
    };
    let head = format!("lookup {}\nfrom {}\n", lookup.name, lookup.from);
    let lent = format!("lent {}\n", lookup.index);
    let input = bytes_line("input", &lookup.input);
    let target = bytes_line("target", &lookup.target);
    head + &lent + &input + &target + &format!("answer {answer}\n")
}

/// A word and bytes; no bytes leave the word alone.
fn bytes_line(word: &str, bytes: &[u8]) -> String {
    let line = format!("{word} {}", hex(bytes));
    line.trim_end().to_string() + "\n"
}

/// Numbers with spaces between them, the number for none as a dash.
fn numbers(numbers: &[u32]) -> String {
    let shown = numbers.iter().map(|number| match *number {
        NONE => "-".to_string(),
        number => number.to_string(),
    });
    shown.collect::<Vec<_>>().join(" ")
}

/// Bytes as printable ASCII.
fn escaped(bytes: &[u8]) -> String {
    let shown = bytes.iter().map(|byte| match byte {
        b'\\' => "\\x5c".to_string(),
        0x20..=0x7e => char::from(*byte).to_string(),
        _ => format!("\\x{byte:02x}"),
    });
    shown.collect()
}
