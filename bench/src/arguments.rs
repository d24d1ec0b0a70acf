//! What the program is asked to do.

use crate::tasks::Subject;

/// How the program is called; `cell` is how it calls itself.
const USAGE: &str =
    "usage: bench [--write PATH | --limits | --against BEFORE NOW | cell FAMILY SIZE SUBJECT..]";

/// One thing to do.
#[derive(Debug, PartialEq, Eq)]
pub enum Request {
    /// Measures everything, prints the report and writes it to the path that is given.
    Report { path: Option<String> },
    /// Measures this check alone where it has a limit.
    Limits,
    /// Compares two archives, each linked to the program at a path.
    Against { programs: [String; 2] },
    /// Measures some subjects on one family at one size.
    Cell {
        family: usize,
        size: usize,
        subjects: Vec<Subject>,
    },
}

/// The request in some arguments, or how the program is called.
pub fn request(arguments: &[String]) -> Result<Request, String> {
    let arguments: Vec<&str> = arguments.iter().map(String::as_str).collect();
    match arguments[..] {
        [] => Ok(Request::Report { path: None }),
        ["--write", path] => Ok(Request::Report {
            path: Some(path.to_string()),
        }),
        ["--against", before, now] => Ok(Request::Against {
            programs: [before, now].map(str::to_string),
        }),
        ["--limits"] => Ok(Request::Limits),
        ["cell", family, size, ref words @ ..] => {
            cell(family, size, words).ok_or(USAGE.to_string())
        }
        _ => Err(USAGE.to_string()),
    }
}

/// The request of a cell, if its words have a meaning.
fn cell(family: &str, size: &str, words: &[&str]) -> Option<Request> {
    let subjects = words.iter().map(|word| Subject::of(word)).collect();
    Some(Request::Cell {
        family: family.parse().ok()?,
        size: size.parse().ok()?,
        subjects: Option::<Vec<Subject>>::filter(subjects, |some| !some.is_empty())?,
    })
}

#[cfg(test)]
mod tests {
    use super::*;

    /// The request in the words of a line.
    fn of(line: &str) -> Result<Request, String> {
        let words: Vec<String> = line.split_whitespace().map(str::to_string).collect();
        request(&words)
    }

    #[test]
    fn every_request_is_understood() {
        let path = Some("page.md".to_string());
        let programs = ["a", "b"].map(str::to_string);
        assert_eq!(of(""), Ok(Request::Report { path: None }));
        assert_eq!(of("--write page.md"), Ok(Request::Report { path }));
        assert_eq!(of("--against a b"), Ok(Request::Against { programs }));
        assert_eq!(of("--limits"), Ok(Request::Limits));
        let cell = Request::Cell {
            family: 3,
            size: 4096,
            subjects: vec![Subject::Tree, Subject::Check],
        };
        assert_eq!(of("cell 3 4096 tree check"), Ok(cell));
    }

    #[test]
    fn other_arguments_are_answered_with_the_usage() {
        let lines =
            "--write|--limits x|--against a|--against a b c|cell 3 x tree|cell 3 4|cell 3 4 x|x";
        for line in lines.split('|') {
            assert_eq!(of(line), Err(USAGE.to_string()), "{line}");
        }
    }
}
