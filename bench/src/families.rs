//! The families of stories, each grown to a size.

mod flat;
mod functions;
mod globals;
mod limited;
mod novel;
mod plain;
mod tiny;

use crate::damage::with_wrong_kind;
use crate::sample::Sample;
use differential::ast::{Node, ParsedStory};
use differential::encode::encode;
use differential::story::divert;

/// A family of stories.
pub struct Family {
    pub title: &'static str,
    /// One line for the report.
    pub about: &'static str,
    /// The sizes at which it is measured, in bytes.
    pub sizes: &'static [usize],
    /// What this check is held to on it.
    pub limit: Option<Limit>,
    /// Its samples of so many bytes in all.
    pub make: fn(usize) -> Vec<Sample>,
}

/// The family that others are compared with.
pub const NOVEL: &str = "novel";

/// The sizes of most families.
const SIZES: &[usize] = &[4096, 65_536, 1_048_576];

/// The sizes of the family whose growth is looked at more closely.
const MORE_SIZES: &[usize] = &[4096, 16_384, 65_536, 262_144, 1_048_576];

/// What this check may take on a family at its largest size.
#[derive(Debug, Clone, Copy, PartialEq, Eq)]
pub enum Limit {
    /// So many times as long as on a novel of that size, and as on the family at its smallest size.
    Times { novel: u32, smallest: u32 },
    /// So many seconds.
    Seconds(u32),
}

/// All families in the order of the report, those with a limit last.
pub fn families() -> impl Iterator<Item = &'static Family> {
    FAMILIES.iter().chain(&limited::FAMILIES)
}

/// The family of a title.
pub fn titled(title: &str) -> Option<&'static Family> {
    families().find(|family| family.title == title)
}

/// The families without a limit.
const FAMILIES: [Family; 13] = [
    Family {
        title: NOVEL,
        about: "chapters with scenes, text, choices, conditions, calls and diverts, nearly half of them by short names; accepted",
        sizes: MORE_SIZES,
        limit: None,
        make: |size| vec![Sample::of(grown(size, novel::novel))],
    },
    Family {
        title: "novel, broken late",
        about: "the same, and the last divert of the last chapter leads nowhere: breach 2",
        sizes: SIZES,
        limit: None,
        make: |size| vec![Sample::of(grown(size, broken_late))],
    },
    Family {
        title: "novel, broken early",
        about: "the same, and the first divert of the root leads nowhere: breach 2",
        sizes: SIZES,
        limit: None,
        make: |size| vec![Sample::of(grown(size, broken_early))],
    },
    Family {
        title: "functions",
        about: "nine functions of ten flows, with parameters, temps, nested expressions and calls; accepted",
        sizes: SIZES,
        limit: None,
        make: |size| vec![Sample::of(grown(size, functions::functions))],
    },
    Family {
        title: "flat knot",
        about: "one knot of gathers and labelled choices that divert to one another by short names; accepted",
        sizes: SIZES,
        limit: None,
        make: |size| vec![Sample::of(grown(size, flat::flat))],
    },
    Family {
        title: "globals",
        about: "globals, each set, printed and diverted to; accepted",
        sizes: SIZES,
        limit: None,
        make: |size| vec![Sample::of(grown(size, globals::globals))],
    },
    Family {
        title: "tiny stories",
        about: "many stories of under 300 bytes, checked one after the other; half of them with names exchanged at random",
        sizes: SIZES,
        limit: None,
        make: tiny::stories,
    },
    Family {
        title: "damaged files",
        about: "four copies of a novel, a kind without meaning 10, 50, 90 and 100 hundredths in: refused 5",
        sizes: SIZES,
        limit: None,
        make: damaged,
    },
    Family {
        title: "root only, text",
        about: "no flows; text in the root, every hundredth record a temp; accepted",
        sizes: SIZES,
        limit: None,
        make: |size| vec![Sample::of(grown(size, plain::root_of_text))],
    },
    Family {
        title: "lookup in a novel, hit",
        about: "the last chapter's name looked up in a novel: found",
        sizes: SIZES,
        limit: None,
        make: |size| vec![hit(grown(size, novel::novel))],
    },
    Family {
        title: "lookup in a novel, miss",
        about: "a name that leads nowhere looked up in a novel: missing",
        sizes: SIZES,
        limit: None,
        make: |size| vec![miss(grown(size, novel::novel))],
    },
    Family {
        title: "lookup in text, hit",
        about: "the knot's name looked up in one knot of text alone: found",
        sizes: SIZES,
        limit: None,
        make: |size| vec![hit(grown(size, plain::knot_of_text))],
    },
    Family {
        title: "lookup in text, miss",
        about: "a name that leads nowhere looked up in one knot of text alone: missing",
        sizes: SIZES,
        limit: None,
        make: |size| vec![miss(grown(size, plain::knot_of_text))],
    },
];

/// A name that leads nowhere in any story.
const NOWHERE: &str = "nowhere_at_all";

/// The largest story of a family whose file has at most so many bytes.
fn grown(size: usize, make: impl Fn(usize) -> ParsedStory) -> ParsedStory {
    let fits = |units: usize| encode(&make(units)).is_ok_and(|file| file.len() <= size);
    let mut over = 1;
    while fits(over) {
        over *= 2;
    }
    let mut under = over / 2;
    while over - under > 1 {
        let middle = (under + over) / 2;
        match fits(middle) {
            true => under = middle,
            false => over = middle,
        }
    }
    make(under)
}

/// A novel whose last divert leads nowhere.
fn broken_late(chapters: usize) -> ParsedStory {
    let mut flows = novel::novel(chapters).flows().to_vec();
    if let Some(last) = flows.last_mut() {
        last.nodes.push(divert(NOWHERE));
    }
    novel::story_of(novel::opening(), flows)
}

/// A novel whose root starts with a divert that leads nowhere.
fn broken_early(chapters: usize) -> ParsedStory {
    let flows = novel::novel(chapters).flows().to_vec();
    let mut root: Vec<Node> = vec![divert(NOWHERE)];
    root.extend(novel::opening());
    novel::story_of(root, flows)
}

/// Damaged copies of a novel.
fn damaged(size: usize) -> Vec<Sample> {
    let whole = Sample::of(grown(size, novel::novel)).file;
    let copies = [10, 50, 90, 100].map(|hundredths| with_wrong_kind(&whole, hundredths));
    copies.map(Sample::damaged).into()
}

/// A story in which the name of its last flow is looked up.
fn hit(story: ParsedStory) -> Sample {
    let last = story.flows().last().map(|flow| flow.name.clone());
    Sample::lookup(story, &last.expect("the story has a flow"))
}

/// A story in which a name that leads nowhere is looked up.
fn miss(story: ParsedStory) -> Sample {
    Sample::lookup(story, NOWHERE)
}

#[cfg(test)]
mod tests {
    use super::*;
    use crate::tasks::{Subject, Task};
    use caller::lent::Lent;
    use differential::decode::decode_only;
    use differential::layout::TRAILER;
    use differential::second::{self, Answer, MESSAGE};
    use differential::validator::oracle;

    /// What is said of a family's first sample at 16 KB, without place and text.
    fn verdict(family: &Family) -> String {
        let sample = &(family.make)(16_384)[0];
        let mut lent = Lent::for_files([&sample.file[..]].into_iter());
        let said = lent.call(&sample.file, sample.target.as_deref());
        let said = said.to_string();
        said.split([':', ' ']).take(2).collect::<Vec<_>>().join(" ")
    }

    /// What ends the line on a family, as it is said by the check or the lookup.
    const ENDS: [(&str, &str); 7] = [
        ("; accepted", "accepted"),
        (": found", "entry"),
        (": missing", "missing"),
        (": breach 2", "breach 2"),
        (": breach 7", "breach 7"),
        (": breach 10", "breach 10"),
        (": refused 5", "refused 5"),
    ];

    #[test]
    fn families_are_what_the_report_says() {
        for family in families().filter(|family| family.title != "tiny stories") {
            let end = ENDS.iter().find(|(end, _)| family.about.ends_with(end));
            let (_, said) = end.expect("the line says what is answered");
            assert!(verdict(family).starts_with(said), "{}", family.title);
        }
    }

    /// The verdict of the second implementation, with the text that it gives.
    fn judged(file: &[u8]) -> (String, Option<String>) {
        match second::check(file, 3 * (file.len() - TRAILER), MESSAGE) {
            Answer::Refused(number) => (format!("refused {number}"), None),
            Answer::Checked(report) => match report.breach {
                None => ("accepted".to_string(), None),
                Some(breach) => (
                    format!("breach {}", breach.rule),
                    String::from_utf8(report.message).ok(),
                ),
            },
        }
    }

    #[test]
    fn stories_with_a_limit_are_readable_and_have_their_verdict_by_the_original() {
        for family in families().filter(|family| family.limit.is_some()) {
            let file = &(family.make)(4096)[0].file;
            let story = decode_only(file).expect("the file is readable");
            let (verdict, text) = judged(file);
            assert_eq!(oracle::verdict(&story), text, "{}", family.title);
            assert!(family.about.ends_with(&verdict), "{}", family.title);
        }
    }

    #[test]
    fn families_fill_a_size_and_are_judged_alike() {
        for family in families() {
            let samples = (family.make)(16_384);
            let subjects = Subject::ALL.into_iter();
            let subjects = subjects.filter(|subject| subject.runs_on(&samples));
            let mut said = subjects.map(|subject| Task::new(subject, &samples).verdicts());
            let first = said.next().expect("some subject runs");
            assert!(said.all(|other| other == first), "{}", family.title);
            let longest = samples.iter().map(|sample| sample.file.len()).max();
            let bytes: usize = samples.iter().map(|sample| sample.file.len()).sum();
            assert!(
                longest <= Some(16_384) && bytes > 13_000,
                "{}",
                family.title
            );
        }
    }
}
