//! The command line: what is asked for.

use std::ffi::OsString;
use std::path::PathBuf;

/// What `--help` prints.
pub const HELP: &str = "\
ink-check: check flat story files with the proved validator

usage: ink-check [OPTIONS] [PATH...]
       ink-check dump [FILE]

A PATH is a story file of any name, a folder, which is searched at all depths for files
named *.inkb, or - for standard input, which is also read when no PATH is given.

One line a file is written:
  PATH: accepted
  PATH: breach R at P: TEXT     the first breach: its rule, its place in the file, its text
  PATH: refused N: REASON       not a story file
  PATH: unreadable: REASON      no such path, no permission, a folder without story files
Control characters are written \\xNN in PATH and TEXT, and so are bytes of TEXT that are not
UTF-8; else PATH is written as it was given.

options:
  -e, --explain   also say in which knot and stitch the place lies, and the path of records
                  to it; for a refused file, where reading stopped
  -j, --json      write one JSON object a file instead; where the bytes of a string KEY are
                  not UTF-8, KEY_hex has them
  -q, --quiet     write nothing for accepted files
  -h, --help      print this
  -V, --version   print the version
  --              what follows is a PATH
Letters may be joined: -eq is -e -q.

dump prints the structure of one file: the place of each piece, and what it is.

exit status: 0 all accepted; 1 some breach; 2 something refused, unreadable or not written,
or a wrong command line
";

/// What is asked for.
#[derive(Debug, PartialEq, Eq)]
pub enum Command {
    Help,
    Version,
    Check(Options),
    Dump(Input),
}

/// How to check, and what.
#[derive(Debug, Default, PartialEq, Eq)]
pub struct Options {
    pub explain: bool,
    pub json: bool,
    pub quiet: bool,
    /// Empty where standard input is read for want of a path.
    pub inputs: Vec<Input>,
}

/// A given path, or standard input.
#[derive(Debug, Clone, PartialEq, Eq)]
pub enum Input {
    Standard,
    Path(PathBuf),
}

/// The command of some arguments, or a line that says what is wrong with them.
pub fn parse(arguments: impl Iterator<Item = OsString>) -> Result<Command, String> {
    let mut options = Options::default();
    let mut arguments = arguments.peekable();
    let dump = arguments.next_if(|first| first == "dump").is_some();
    let mut only_paths = false;
    for argument in arguments {
        let given = argument.to_string_lossy().into_owned();
        match given.as_str() {
            _ if only_paths => options.inputs.push(Input::Path(argument.into())),
            "--" => only_paths = true,
            "-" => options.inputs.push(Input::Standard),
            "-h" | "--help" => return Ok(Command::Help),
            "-V" | "--version" => return Ok(Command::Version),
            _ if !dump && options.set(&given) => {}
            _ if given.starts_with('-') => return Err(unknown(&given, dump)),
            _ => options.inputs.push(Input::Path(argument.into())),
        }
    }
    let standard = |input: &&Input| **input == Input::Standard;
    if options.inputs.iter().filter(standard).count() > 1 {
        return Err("standard input is given twice".to_string());
    }
    match dump {
        true => dump_of(options.inputs),
        false => Ok(Command::Check(options)),
    }
}

impl Options {
    /// Takes an option in, or some joined ones; whether they all are options.
    fn set(&mut self, given: &str) -> bool {
        let letters = match given {
            "--explain" => "e",
            "--json" => "j",
            "--quiet" => "q",
            _ => given.strip_prefix('-').unwrap_or(""),
        };
        for letter in letters.chars() {
            match letter {
                'e' => self.explain = true,
                'j' => self.json = true,
                'q' => self.quiet = true,
                _ => return false,
            }
        }
        !letters.is_empty()
    }
}

/// What is said of an option that is none.
fn unknown(given: &str, dump: bool) -> String {
    let command = if dump { " of dump" } else { "" };
    format!("unknown option{command}: {given}; see ink-check --help")
}

/// Dump takes one file, or standard input where none is given.
fn dump_of(mut inputs: Vec<Input>) -> Result<Command, String> {
    match inputs.len() {
        0 => Ok(Command::Dump(Input::Standard)),
        1 => Ok(Command::Dump(inputs.remove(0))),
        count => Err(format!("dump takes one file, {count} were given")),
    }
}

#[cfg(test)]
mod tests {
    use super::*;

    /// The command of some words.
    fn parsed(words: &[&str]) -> Result<Command, String> {
        parse(words.iter().map(OsString::from))
    }

    #[test]
    fn options_may_stand_behind_paths_but_not_behind_two_dashes() {
        let options = Options {
            quiet: true,
            inputs: vec![Input::Path("a".into()), Input::Path("--json".into())],
            ..Options::default()
        };
        let given = parsed(&["a", "-q", "--", "--json"]);
        assert_eq!(given, Ok(Command::Check(options)));
    }

    #[test]
    fn dump_is_a_command_only_in_front() {
        let dumped = parsed(&["dump", "dump"]);
        assert_eq!(dumped, Ok(Command::Dump(Input::Path("dump".into()))));
        let Ok(Command::Check(options)) = parsed(&["a", "dump"]) else {
            panic!("a check");
        };
        assert_eq!(options.inputs.len(), 2);
    }

    #[test]
    fn letters_may_be_joined() {
        let options = Options {
            explain: true,
            json: true,
            inputs: vec![Input::Path("a".into())],
            ..Options::default()
        };
        assert_eq!(parsed(&["-je", "a"]), Ok(Command::Check(options)));
        assert!(parsed(&["-jx"]).unwrap_err().contains("-jx"));
        assert!(parsed(&["dump", "-e"]).is_err());
    }

    #[test]
    fn standard_input_is_read_once() {
        assert!(parsed(&["-", "a", "-"]).is_err());
        assert!(parsed(&["-", "a"]).is_ok());
    }

    #[test]
    fn wrong_command_lines_are_named() {
        assert!(parsed(&["--jsn"]).unwrap_err().contains("--jsn"));
        assert!(parsed(&["dump", "--json", "a"]).is_err());
        assert!(parsed(&["dump", "a", "b"]).is_err());
    }
}
