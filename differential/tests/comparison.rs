//! The comparison sees what it should: right subjects pass, wrong ones are caught.

use differential::cases::{Case, case};
use differential::compare::{compare, compare_lent, returned_by};
use differential::second::{self, Answer, Lookup};
use differential::subject::{FoundTarget, Observed, Program, Returned, Subject};
use differential::tally::Tally;
use std::io::Result;

/// A change to what a right subject answers.
type Fault = fn(&mut Returned, &mut [u32], &mut [u8]);

/// A change to what a right subject's lookup answers, given the index that it leaves.
type LookupFault = fn(FoundTarget, &mut [u32]) -> FoundTarget;

/// A library that answers as the second implementation does, but for one fault.
struct Library {
    fault: Fault,
    look_up: LookupFault,
}

impl Subject for Library {
    fn title(&self) -> String {
        "library".to_string()
    }

    fn check(&mut self, file: &[u8], index: &mut [u32], message: &mut [u8]) -> Result<Observed> {
        let answer = second::check(file, index.len(), message.len());
        if let Answer::Checked(report) = &answer {
            let numbers = report.entries.concat();
            index[..numbers.len()].copy_from_slice(&numbers);
            message[..report.message.len()].copy_from_slice(&report.message);
        }
        let mut returned = returned_by(&answer);
        (self.fault)(&mut returned, index, message);
        Ok(Observed::Returned(returned))
    }

    fn lookup(
        &mut self,
        file: &[u8],
        index: &mut [u32],
        target: &[u8],
    ) -> Result<Option<FoundTarget>> {
        if let Ok(entries) = second::entries(file, index.len()) {
            let numbers = entries.concat();
            index[..numbers.len()].copy_from_slice(&numbers);
        }
        let found = match second::lookup(file, index.len(), target) {
            Err(refusal) => FoundTarget::Refused(refusal),
            Ok(Lookup::Pass) => FoundTarget::Pass,
            Ok(Lookup::Function) => FoundTarget::Function,
            Ok(Lookup::Reserved) => FoundTarget::Reserved,
            Ok(Lookup::Exact(entries)) => FoundTarget::Exact(*entries.last().unwrap()),
            Ok(Lookup::Ending(entries)) => FoundTarget::Ending(*entries.last().unwrap()),
            Ok(Lookup::Missing) => FoundTarget::Missing,
        };
        Ok(Some((self.look_up)(found, index)))
    }
}

/// How many of some cases differ.
fn differing(mut subject: Library) -> usize {
    let differs = |number: &u64| {
        let case = case(3, *number);
        !compare(&case, Some(&mut subject)).differences.is_empty()
    };
    (0..400).filter(differs).count()
}

/// How many of some cases differ for a check with a fault.
fn differing_check(fault: Fault) -> usize {
    differing(Library {
        fault,
        look_up: |found, _| found,
    })
}

#[test]
fn a_right_subject_passes() {
    assert_eq!(differing_check(|_, _, _| {}), 0);
}

#[test]
fn a_subject_that_accepts_all_is_caught() {
    let caught = differing_check(|returned, _, _| {
        if let Returned::Checked { rule, .. } = returned {
            *rule = 0;
        }
    });
    assert!(caught > 100, "{caught}");
}

#[test]
fn a_subject_that_refuses_all_is_caught() {
    let caught = differing_check(|returned, _, _| *returned = Returned::Refused(4));
    assert!(caught > 200, "{caught}");
}

#[test]
fn wrong_numbers_and_buffers_are_caught() {
    let faults: [Fault; 6] = [
        |returned, _, _| {
            if let Returned::Checked { place, .. } = returned {
                *place += 1;
            }
        },
        |returned, _, _| {
            if let Returned::Checked { names, .. } = returned {
                names.swap(0, 1);
            }
        },
        |returned, _, _| {
            if let Returned::Checked { entries, .. } = returned {
                *entries += 1;
            }
        },
        |returned, _, _| {
            if let Returned::Checked { message, .. } = returned {
                *message += 1;
            }
        },
        |_, index, _| {
            if let Some(last) = index.last_mut() {
                *last = 0;
            }
        },
        |_, _, message| {
            if let Some(last) = message.last_mut() {
                *last = 0;
            }
        },
    ];
    for (number, fault) in faults.into_iter().enumerate() {
        let caught = differing_check(fault);
        assert!(caught > 50, "fault {number} was caught {caught} times");
    }
}

#[test]
fn a_lookup_that_never_finds_is_caught() {
    let caught = differing(Library {
        fault: |_, _, _| {},
        look_up: |found, _| match found {
            FoundTarget::Exact(_) | FoundTarget::Ending(_) => FoundTarget::Missing,
            other => other,
        },
    });
    assert!(caught > 100, "{caught}");
}

/// How many of some cases differ for a fault, with buffers exact, short and longer.
fn differing_lent(fault: Fault, look_up: LookupFault) -> usize {
    let mut subject = Library { fault, look_up };
    let differs = |number: &u64| {
        let lent = compare_lent(&case(3, *number), &mut subject);
        !lent.differences.is_empty()
    };
    (0..100).filter(differs).count()
}

#[test]
fn faults_that_only_longer_or_short_buffers_show_are_caught() {
    let right: LookupFault = |found, _| found;
    assert_eq!(differing_lent(|_, _, _| {}, right), 0);
    let longer: Fault = |_, index, message| {
        if message.len() > 640 {
            *index.last_mut().unwrap() = 0;
        }
    };
    assert_eq!(differing_lent(longer, right), 100);
    let short: Fault = |_, _, message| {
        if message.len() == 639 {
            message[638] = 0;
        }
    };
    assert_eq!(differing_lent(short, right), 100);
}

#[test]
fn lookups_that_only_longer_or_short_buffers_show_wrong_are_caught() {
    let right: Fault = |_, _, _| {};
    let longer: LookupFault = |found, index| {
        if index.len() % 3 == 1 {
            *index.last_mut().unwrap() = 0;
        }
        found
    };
    assert_eq!(differing_lent(right, longer), 100);
    let unread: LookupFault = |found, _| match found {
        FoundTarget::Refused(7) => FoundTarget::Missing,
        other => other,
    };
    let caught = differing_lent(right, unread);
    assert!(caught > 50, "{caught}");
    let other_entry: LookupFault = |found, _| match found {
        FoundTarget::Ending(entry) => FoundTarget::Ending(entry + 1),
        other => other,
    };
    let caught = differing_lent(right, other_entry);
    assert!(caught > 30, "{caught}");
}

#[test]
fn a_program_that_prints_another_line_is_caught() {
    struct Printer(&'static [u8]);
    impl Subject for Printer {
        fn title(&self) -> String {
            "printer".to_string()
        }
        fn check(&mut self, _: &[u8], _: &mut [u32], _: &mut [u8]) -> Result<Observed> {
            Ok(Observed::Line(self.0.to_vec()))
        }
    }
    let empty = Case {
        file: differential::layout::file(&[], &[], &[], &[]),
        story: None,
        index: 0,
        message: 640,
        targets: vec![],
        beside: vec![],
    };
    let differences = |line| compare(&empty, Some(&mut Printer(line))).differences.len();
    assert_eq!(differences(b"accepted\n"), 0);
    assert_eq!(differences(b"accepted"), 1);
    assert_eq!(differences(b"accepted \n"), 1);
    assert_eq!(differences(b"refused 1\n"), 1);
}

#[test]
fn a_run_is_good_only_when_everything_occurred() {
    let mut tally = Tally::default();
    let mut count = |from, to| {
        for number in from..to {
            let case = case(4, number);
            tally.count(number, &case.file, &compare(&case, None));
        }
        tally.good()
    };
    assert!(!count(0, 100));
    assert!(count(100, 2000));
}

#[test]
fn a_run_with_a_library_is_good_only_when_its_lookups_gave_every_answer() {
    let good = |look_up: LookupFault| {
        let mut subject = Library {
            fault: |_, _, _| {},
            look_up,
        };
        let mut tally = Tally::default();
        for number in 0..2000 {
            let case = case(4, number);
            tally.count(number, &case.file, &compare(&case, None));
            if number < 400 {
                tally.count_lent(&compare_lent(&case, &mut subject));
            }
        }
        tally.good()
    };
    assert!(good(|found, _| found));
    assert!(!good(|found, _| match found {
        FoundTarget::Refused(6) => FoundTarget::Refused(5),
        other => other,
    }));
}

#[test]
fn a_difference_is_counted_and_shown() {
    let mut tally = Tally::default();
    let case = case(4, 0);
    let mut outcome = compare(&case, None);
    outcome
        .differences
        .push("verdict: expected this, got that".to_string());
    tally.count(0, &case.file, &outcome);
    let report = tally.report();
    assert!(report.contains("verdict: expected this, got that"));
    assert!(report.ends_with("0 passed, 1 failed"));
    assert!(!tally.good());
}

#[test]
fn a_program_is_given_the_file_and_its_output_is_seen() {
    let mut echo = Program::at("cat");
    let seen = echo.check(b"any bytes \x00\xff", &mut [], &mut []).unwrap();
    assert_eq!(seen, Observed::Line(b"any bytes \x00\xff".to_vec()));
}

#[test]
fn a_program_that_fails_is_caught() {
    let mut failing = Program::at("false");
    assert!(failing.check(b"", &mut [], &mut []).is_err());
}
