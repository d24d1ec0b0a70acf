//! What is known of a whole story, and the searches for targets and called names.

use super::index::{Entry, spelling};
use super::reader::Story;
use super::{Lookup, reader};
use std::collections::BTreeSet;

/// The words that the original takes for built in.
const BUILTINS: [&str; 21] = [
    "RANDOM",
    "SEED_RANDOM",
    "POW",
    "FLOOR",
    "CEILING",
    "INT",
    "FLOAT",
    "MIN",
    "MAX",
    "READ_COUNT",
    "TURNS_SINCE",
    "CHOICE_COUNT",
    "TURNS",
    "LIST_VALUE",
    "LIST_ALL",
    "LIST_INVERT",
    "LIST_COUNT",
    "LIST_MIN",
    "LIST_MAX",
    "LIST_RANGE",
    "LIST_RANDOM",
];

/// The targets that are valid in every story.
const RESERVED: [&str; 3] = ["END", "DONE", "->->"];

/// Names as a set of byte strings.
type Names<'f> = BTreeSet<&'f [u8]>;

/// The names of a story by what they are.
pub struct Known<'f> {
    pub functions: Names<'f>,
    pub globals: Names<'f>,
    flows: Names<'f>,
    externals: Names<'f>,
    spellings: Vec<Vec<u8>>,
}

impl<'f> Known<'f> {
    /// Collects the names of a story with these entries.
    pub fn new(story: &Story<'f>, file: &[u8], entries: &[Entry]) -> Self {
        let flows = story.flows.iter();
        let functions = flows.clone().filter(|flow| flow.is_function);
        Known {
            functions: functions.map(|flow| flow.own.name.bytes).collect(),
            flows: flows.map(|flow| flow.own.name.bytes).collect(),
            globals: set(&story.globals),
            externals: set(&story.externals),
            spellings: entries.iter().map(|e| spelling(file, e)).collect(),
        }
    }

    /// Breach 1 or 2 of a target, or none.
    pub fn target_breach(&self, target: &[u8]) -> Option<u8> {
        match self.lookup(target) {
            Lookup::Function => Some(1),
            Lookup::Missing => Some(2),
            _ => None,
        }
    }

    /// Pass, Function, Reserved, Exact, Ending or Missing, in this order of preference.
    pub fn lookup(&self, target: &[u8]) -> Lookup {
        if target.is_empty() || target == b"->" || target[0] == b'$' {
            return Lookup::Pass;
        }
        if self.functions.contains(target) {
            return Lookup::Function;
        }
        if RESERVED.iter().any(|word| word.as_bytes() == target) {
            return Lookup::Reserved;
        }
        let exact = self.entries_with(|spelling| spelling == target);
        if !exact.is_empty() {
            return Lookup::Exact(exact);
        }
        let dotted = [b".", target].concat();
        let ending = self.entries_with(|spelling| spelling.ends_with(&dotted));
        if !ending.is_empty() {
            return Lookup::Ending(ending);
        }
        Lookup::Missing
    }

    /// The numbers of the entries whose spelling passes a test.
    fn entries_with(&self, test: impl Fn(&[u8]) -> bool) -> Vec<u32> {
        let numbered = (0..).zip(&self.spellings);
        let passing = numbered.filter(|(_, spelling)| test(spelling));
        passing.map(|(number, _)| number).collect()
    }

    /// Whether calling a name is breach 3.
    pub fn call_breach(&self, name: &[u8]) -> bool {
        let passes = self.functions.contains(name)
            || self.externals.contains(name)
            || BUILTINS.iter().any(|word| word.as_bytes() == name);
        !passes && self.flows.contains(name)
    }
}

/// The bytes of some names.
pub fn set<'f>(names: &[reader::Name<'f>]) -> Names<'f> {
    names.iter().map(|name| name.bytes).collect()
}
