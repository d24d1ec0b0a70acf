//! The calls into the proved archive, over buffers that the caller lends.

use crate::answer::{Answer, Breach, Found, Lookup};
use crate::rule::{Refusal, Rule};

/// The number that stands where there is no place, name or entry.
const NONE: u32 = u32::MAX;

/// What a wrong archive under the right name would lead to.
const OUTSIDE_CONTRACT: &str = "libqaabireed answers as its contract says";

// Nothing compares these declarations with the archive but the tests, which replay its answers.
unsafe extern "C" {
    fn qaabireed_check(
        file: *const u8,
        file_len: usize,
        index: *mut u32,
        index_len: usize,
        message: *mut u8,
        message_len: usize,
        result: *mut u32,
        result_len: usize,
    ) -> u32;

    fn qaabireed_lookup(
        file: *const u8,
        file_len: usize,
        index: *mut u32,
        index_len: usize,
        target: *const u8,
        target_len: usize,
        result: *mut u32,
        result_len: usize,
    ) -> u32;
}

/// Checks a story file with a lent index and message buffer.
///
/// The index wants [`index_length`](crate::layout::index_length) numbers, the message buffer
/// [`MESSAGE_LENGTH`](crate::layout::MESSAGE_LENGTH) bytes. The entries stand at the index's start
/// and the message at its buffer's; the rest of both stays. A refusal writes nothing.
///
/// ```
/// use qaabireed::{Answer, Refusal, check};
///
/// let file = b"\x03\x02\0\0\0\x01x\0\0\0\0\0\0\0\0\0\0\0\0\x07\0\0\0IK\x01\0";
/// let Answer::Breach(breach) = check(file, &mut [0; 21], &mut [0; 640]) else { panic!() };
/// assert_eq!((breach.rule.number(), breach.place), (2, 0));
/// assert_eq!(breach.to_string(), "Divert target not found: '-> x'");
///
/// let refused = check(file, &mut [0; 20], &mut [0; 640]);
/// assert_eq!(refused, Answer::Refused(Refusal::Index));
/// ```
pub fn check(file: &[u8], index: &mut [u32], message: &mut [u8]) -> Answer {
    let mut result = [0; 7];
    // SAFETY: each pointer comes with the length of the slice that it is taken from; the three
    // written slices are borrowed for writing, so they overlap nothing; the archive keeps no
    // pointer and reads and writes within the lengths for all bytes, which is proved of it.
    let short = unsafe {
        qaabireed_check(
            file.as_ptr(),
            file.len(),
            index.as_mut_ptr(),
            index.len(),
            message.as_mut_ptr(),
            message.len(),
            result.as_mut_ptr(),
            result.len(),
        )
    };
    assert_eq!(short, 0, "{OUTSIDE_CONTRACT}");
    answer(result, message).expect(OUTSIDE_CONTRACT)
}

/// Looks a divert's target up in a story file, with a lent index.
///
/// The index is written as by [`check`]; a refusal writes nothing.
///
/// ```
/// use qaabireed::{Found, lookup};
///
/// let file = b"\x01x\0\0\0\0\x02\0\0\0\x02\0\0\0\x02\0\0\0IK\x01\0";
/// assert_eq!(lookup(file, &mut [0; 6], b"x").into_result(), Ok(Found::Exact(0)));
/// assert_eq!(lookup(file, &mut [0; 6], b"y").into_result(), Ok(Found::Missing));
/// ```
pub fn lookup(file: &[u8], index: &mut [u32], target: &[u8]) -> Lookup {
    let mut result = [0; 4];
    // SAFETY: as in `check`.
    let short = unsafe {
        qaabireed_lookup(
            file.as_ptr(),
            file.len(),
            index.as_mut_ptr(),
            index.len(),
            target.as_ptr(),
            target.len(),
            result.as_mut_ptr(),
            result.len(),
        )
    };
    assert_eq!(short, 0, "{OUTSIDE_CONTRACT}");
    found(result).expect(OUTSIDE_CONTRACT)
}

/// The answer of a check's seven numbers.
fn answer(result: [u32; 7], written: &[u8]) -> Option<Answer> {
    let [outcome, number, place, first, second, entries, length] = result;
    match outcome {
        0 => Some(Answer::Accepted { entries }),
        1 => Some(Answer::Breach(Breach {
            rule: Rule::from_number(number)?,
            place,
            names: [first, second].map(some),
            entries,
            message: written.get(..length as usize)?.to_vec(),
        })),
        2 => Refusal::from_number(number).map(Answer::Refused),
        _ => None,
    }
}

/// The answer of a lookup's four numbers.
fn found(result: [u32; 4]) -> Option<Lookup> {
    let [outcome, number, entry, entries] = result;
    let found = match (outcome, number) {
        (2, _) => return Refusal::from_number(number).map(Lookup::Refused),
        (0, 0) => Found::Pass,
        (0, 1) => Found::Function,
        (0, 2) => Found::Reserved,
        (0, 3) => Found::Exact(entry),
        (0, 4) => Found::Ending(entry),
        (0, 5) => Found::Missing,
        _ => return None,
    };
    Some(Lookup::Answered { found, entries })
}

/// A place, unless it is the number for none.
fn some(place: u32) -> Option<u32> {
    (place != NONE).then_some(place)
}

#[cfg(test)]
mod tests {
    use super::*;

    #[test]
    fn numbers_outside_the_contract_have_no_answer() {
        assert_eq!(answer([3, 0, 0, 0, 0, 0, 0], &[]), None);
        assert_eq!(answer([1, 16, 0, 0, 0, 0, 0], &[]), None);
        assert_eq!(answer([1, 2, 0, 0, 0, 0, 5], &[0; 4]), None);
        assert_eq!(answer([2, 9, 0, 0, 0, 0, 0], &[]), None);
        assert_eq!(found([1, 0, 0, 0]), None);
        assert_eq!(found([0, 6, 0, 0]), None);
        assert_eq!(found([2, 0, 0, 0]), None);
    }

    #[test]
    fn names_that_are_not_there_are_none() {
        let Some(Answer::Breach(breach)) = answer([1, 14, 9, 5, NONE, 2, 0], &[]) else {
            panic!("a breach");
        };
        assert_eq!(breach.names, [Some(5), None]);
    }
}
