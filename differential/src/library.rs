//! The compiled validator as a library: the archive's two functions as a subject.

use crate::subject::{FoundTarget, Observed, Returned, Subject};
use std::io::{Error, Result};

unsafe extern "C" {
    fn qaabireed_check(
        file: *const u8,
        file_len: usize,
        index: *mut u32,
        index_len: usize,
        message: *mut u8,
        message_len: usize,
        result: *mut u32,
        result_len: usize,
    ) -> u32;

    fn qaabireed_lookup(
        file: *const u8,
        file_len: usize,
        index: *mut u32,
        index_len: usize,
        target: *const u8,
        target_len: usize,
        result: *mut u32,
        result_len: usize,
    ) -> u32;
}

/// The number that stands where there is no place, name or entry.
const NONE: u32 = u32::MAX;

/// The content of a result buffer before a call.
const OLD: u32 = 0x5A5A_A5A5;

/// How many numbers a check and a lookup return.
const CHECK: usize = 7;
const LOOKUP: usize = 4;

/// The archive; each call's result buffer is tried one short, exact and longer in turn.
#[derive(Default)]
pub struct Library {
    calls: usize,
}

impl Library {
    /// A longer result buffer on every other call, filled with old numbers.
    fn result(&mut self, numbers: usize) -> Vec<u32> {
        self.calls += 1;
        let more = if self.calls.is_multiple_of(2) { 0 } else { 3 };
        vec![OLD; numbers + more]
    }
}

/// One check.
fn check(file: &[u8], index: &mut [u32], message: &mut [u8], result: &mut [u32]) -> u32 {
    // SAFETY: each pointer comes with its slice's length, and what is written is borrowed for writing.
    unsafe {
        qaabireed_check(
            file.as_ptr(),
            file.len(),
            index.as_mut_ptr(),
            index.len(),
            message.as_mut_ptr(),
            message.len(),
            result.as_mut_ptr(),
            result.len(),
        )
    }
}

/// One lookup.
fn lookup(file: &[u8], index: &mut [u32], target: &[u8], result: &mut [u32]) -> u32 {
    // SAFETY: as in `check`.
    unsafe {
        qaabireed_lookup(
            file.as_ptr(),
            file.len(),
            index.as_mut_ptr(),
            index.len(),
            target.as_ptr(),
            target.len(),
            result.as_mut_ptr(),
            result.len(),
        )
    }
}

/// Fails with a line where something does not hold.
fn expect(holds: bool, line: &str) -> Result<()> {
    match holds {
        true => Ok(()),
        false => Err(Error::other(line)),
    }
}

impl Subject for Library {
    fn title(&self) -> String {
        "libqaabireed.a".to_string()
    }

    /// A call with a short result must write nothing; then the call itself.
    fn check(&mut self, file: &[u8], index: &mut [u32], message: &mut [u8]) -> Result<Observed> {
        let before = (index.to_vec(), message.to_vec());
        let mut short = [OLD; CHECK - 1];
        let code = check(file, index, message, &mut short);
        expect(code == 1, "a short result buffer is not told")?;
        let stays = short == [OLD; CHECK - 1] && before == (index.to_vec(), message.to_vec());
        expect(stays, "a call with a short result buffer writes")?;
        let mut result = self.result(CHECK);
        let code = check(file, index, message, &mut result);
        expect(
            code == 0,
            "a result buffer that is long enough is called short",
        )?;
        let (numbers, rest) = result.split_at(CHECK);
        let rest_stays = rest.iter().all(|one| *one == OLD);
        expect(rest_stays, "the rest of the result is written")?;
        returned(numbers).map(Observed::Returned)
    }

    /// Likewise for lookups.
    fn lookup(
        &mut self,
        file: &[u8],
        index: &mut [u32],
        target: &[u8],
    ) -> Result<Option<FoundTarget>> {
        let before = index.to_vec();
        let mut short = [OLD; LOOKUP - 1];
        let code = lookup(file, index, target, &mut short);
        expect(code == 1, "a short result buffer is not told")?;
        let stays = short == [OLD; LOOKUP - 1] && before == index;
        expect(stays, "a call with a short result buffer writes")?;
        let mut result = self.result(LOOKUP);
        let code = lookup(file, index, target, &mut result);
        expect(
            code == 0,
            "a result buffer that is long enough is called short",
        )?;
        let (numbers, rest) = result.split_at(LOOKUP);
        let rest_stays = rest.iter().all(|one| *one == OLD);
        expect(rest_stays, "the rest of the result is written")?;
        expect(
            counts(numbers[3], &before, index),
            "the entry count is another than the index shows",
        )?;
        found(numbers).map(Some)
    }
}

/// What a check's numbers say; those without a meaning must be none or 0.
fn returned(numbers: &[u32]) -> Result<Returned> {
    let [outcome, number, place, first, second, entries, message] = numbers else {
        unreachable!("a check has seven numbers");
    };
    let unplaced = [*place, *first, *second] == [NONE; 3];
    match outcome {
        0 => expect(*number == 0 && unplaced && *message == 0, "acceptance")?,
        1 => expect((1..=15).contains(number), "a rule's number")?,
        2 => {
            let refused = (1..=8).contains(number) && unplaced;
            expect(refused && [*entries, *message] == [0; 2], "a refusal")?;
            return Ok(Returned::Refused(*number as u8));
        }
        _ => return Err(Error::other(format!("outcome {outcome}"))),
    }
    Ok(Returned::Checked {
        rule: *number as u8,
        place: if *outcome == 0 { 0 } else { *place },
        names: [*first, *second],
        entries: *entries,
        message: *message,
    })
}

/// Whether exactly so many entries of an index were written over what was there before.
fn counts(entries: u32, before: &[u32], index: &[u32]) -> bool {
    let written = 3 * entries as usize;
    let last = written.wrapping_sub(1);
    written <= index.len()
        && before[written..] == index[written..]
        && (written == 0 || before[last] != index[last])
}

/// What a lookup's numbers say.
fn found(numbers: &[u32]) -> Result<FoundTarget> {
    let [outcome, number, entry, entries] = numbers else {
        unreachable!("a lookup has four numbers");
    };
    let names_entry = *outcome == 0 && [3, 4].contains(number);
    expect(
        names_entry == (*entry != NONE),
        "an entry where one is found alone",
    )?;
    if *outcome == 2 {
        expect((1..=7).contains(number) && *entries == 0, "a refusal")?;
        return Ok(FoundTarget::Refused(*number as u8));
    }
    match (outcome, number) {
        (0, 0) => Ok(FoundTarget::Pass),
        (0, 1) => Ok(FoundTarget::Function),
        (0, 2) => Ok(FoundTarget::Reserved),
        (0, 3) => Ok(FoundTarget::Exact(*entry)),
        (0, 4) => Ok(FoundTarget::Ending(*entry)),
        (0, 5) => Ok(FoundTarget::Missing),
        _ => Err(Error::other(format!("outcome {outcome}, answer {number}"))),
    }
}
