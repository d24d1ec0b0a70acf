//! The archive, where the build has linked it, on cases of every sort.

#![cfg(qaabireed_library)]

use differential::cases::{case, shaped_case};
use differential::compare::{compare, compare_lent};
use differential::library::Library;

#[test]
fn the_library_agrees_with_buffers_exact_short_and_longer() {
    let mut library = Library::default();
    for number in 0..800 {
        let case = case(5, number);
        let mut differences = compare(&case, Some(&mut library)).differences;
        differences.extend(compare_lent(&case, &mut library).differences);
        assert_eq!(differences, Vec::<String>::new(), "story {number}");
    }
}

#[test]
fn the_library_agrees_on_shaped_stories() {
    let mut library = Library::default();
    for number in 0..200 {
        let case = shaped_case(5, number);
        let differences = compare_lent(&case, &mut library).differences;
        assert_eq!(differences, Vec::<String>::new(), "story {number}");
    }
}
