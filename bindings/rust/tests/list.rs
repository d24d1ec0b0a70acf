//! The stored list of answers, replayed over the archive with buffers exact, short and longer.

mod common;

use common::{Block, stored_list, unescaped};
use qaabireed::layout::{MESSAGE_LENGTH, index_length};
use qaabireed::{Answer, Found, Lookup, Refusal, check, decode, lookup, outline};

/// What lent buffers hold before a call.
const OLD_NUMBER: u32 = 0xA5A5_5A5A;
const OLD_BYTE: u8 = 0xA5;

/// A check with buffers of these lengths, and what it leaves in them.
fn checked(file: &[u8], index: usize, message: usize) -> (Answer, Vec<u32>, Vec<u8>) {
    let mut index = vec![OLD_NUMBER; index];
    let mut message = vec![OLD_BYTE; message];
    let answer = check(file, &mut index, &mut message);
    (answer, index, message)
}

/// An answer as the stored list has it, and its message.
fn line(answer: &Answer) -> (Vec<u8>, &[u8]) {
    match answer {
        Answer::Accepted { .. } => (b"accepted".to_vec(), &[]),
        Answer::Refused(refusal) => (format!("refused {}", refusal.number()).into(), &[]),
        Answer::Breach(breach) => {
            let head = format!("breach {} at {}: ", breach.rule.number(), breach.place);
            let line = [head.as_bytes(), &breach.message].concat();
            (line, &breach.message)
        }
    }
}

/// The names and the entry count of an answer that is not a refusal.
fn numbers(answer: &Answer) -> Option<([Option<u32>; 2], u32)> {
    match answer {
        Answer::Accepted { entries } => Some(([None; 2], *entries)),
        Answer::Breach(breach) => Some((breach.names, breach.entries)),
        Answer::Refused(_) => None,
    }
}

/// Whether a buffer starts with what was written and is old in the rest.
fn holds<T: PartialEq>(buffer: &[T], written: &[T], old: T) -> bool {
    buffer.starts_with(written) && buffer[written.len()..].iter().all(|one| *one == old)
}

/// Holds a block's answer, numbers and both buffers to the list.
fn assert_block(block: &Block, file: &[u8], index: usize, message: usize) {
    let (answer, index, message) = checked(file, index, message);
    let (line, text) = line(&answer);
    let name = &block.name;
    assert_eq!(line, unescaped(block.get("line").unwrap()), "{name}");
    assert!(holds(&index, &block.numbers("index"), OLD_NUMBER), "{name}");
    assert!(holds(&message, text, OLD_BYTE), "{name}");
    if let Some((names, entries)) = numbers(&answer) {
        let names = names.map(|name| name.unwrap_or(u32::MAX));
        assert_eq!(names.to_vec(), block.numbers("names"), "{name}");
        assert_eq!(vec![entries], block.numbers("entries"), "{name}");
    }
}

/// The inputs of the program that it does not refuse for being longer than its own buffer.
fn vectors() -> Vec<(Block, Vec<u8>)> {
    let blocks = stored_list()
        .into_iter()
        .filter(|block| block.kind == "vector");
    let vectors = blocks.map(|block| (block.bytes("input"), block));
    vectors
        .filter(|(file, _)| file.len() <= 4096)
        .map(|(file, block)| (block, file))
        .collect()
}

#[test]
fn every_vector_has_its_answer_with_buffers_just_long_enough_and_longer() {
    for (block, file) in vectors() {
        let enough = index_length(file.len());
        assert_block(&block, &file, enough, MESSAGE_LENGTH);
        assert_block(&block, &file, enough + 5, MESSAGE_LENGTH + 7);
    }
}

#[test]
fn a_buffer_one_short_is_refused_and_left_as_it_was() {
    for (block, file) in vectors() {
        let enough = index_length(file.len());
        let readable = !block.get("line").unwrap().starts_with("refused");
        if !readable {
            continue;
        }
        let short = checked(&file, enough, MESSAGE_LENGTH - 1);
        assert_eq!(short.0, Answer::Refused(Refusal::Message), "{}", block.name);
        assert!(holds(&short.1, &[], OLD_NUMBER) && holds(&short.2, &[], OLD_BYTE));
        if enough > 0 {
            let short = checked(&file, enough - 1, MESSAGE_LENGTH - 1);
            assert_eq!(short.0, Answer::Refused(Refusal::Index), "{}", block.name);
            assert!(holds(&short.1, &[], OLD_NUMBER) && holds(&short.2, &[], OLD_BYTE));
        }
    }
}

#[test]
fn every_call_with_lent_lengths_has_its_answer() {
    let blocks = stored_list()
        .into_iter()
        .filter(|block| block.kind == "call");
    let mut count = 0;
    for block in blocks {
        let lent = block.numbers("lent");
        assert_block(
            &block,
            &block.bytes("input"),
            lent[0] as usize,
            lent[1] as usize,
        );
        count += 1;
    }
    assert!(count > 10, "only {count} calls");
}

/// Whether a lookup's answer is one that the list allows.
fn allowed(answer: &str, found: Lookup) -> bool {
    let mut words = answer.split_whitespace();
    let word = words.next().unwrap_or("");
    let entries: Vec<u32> = words.map(|entry| entry.parse().unwrap()).collect();
    match found {
        Lookup::Refused(refusal) => word == "refused" && entries == [refusal.number().into()],
        Lookup::Answered { found, .. } => match found {
            Found::Pass => word == "pass",
            Found::Function => word == "function",
            Found::Reserved => word == "reserved",
            Found::Exact(entry) => word == "exact" && entries.contains(&entry),
            Found::Ending(entry) => word == "ending" && entries.contains(&entry),
            Found::Missing => word == "missing",
        },
    }
}

#[test]
fn every_lookup_has_its_answer_and_writes_the_index_of_a_check() {
    let blocks = stored_list()
        .into_iter()
        .filter(|block| block.kind == "lookup");
    let mut count = 0;
    for block in blocks {
        let file = block.bytes("input");
        let mut index = vec![OLD_NUMBER; block.numbers("lent")[0] as usize];
        let found = lookup(&file, &mut index, &block.bytes("target"));
        let answer = block.get("answer").unwrap();
        assert!(allowed(answer, found), "{}: {found:?}", block.name);
        let (answer, expected, _) = checked(&file, index.len(), MESSAGE_LENGTH);
        assert_eq!(index, expected, "{}", block.name);
        if let Lookup::Answered { entries, .. } = found {
            let counted = numbers(&answer).map(|(_, entries)| entries);
            assert_eq!(counted, Some(entries), "{}", block.name);
        }
        count += 1;
    }
    assert!(count > 30, "only {count} lookups");
}

#[test]
fn the_decoder_refuses_what_the_archive_refuses_and_the_encoder_gives_the_bytes_back() {
    for (block, file) in vectors() {
        let (answer, _, _) = checked(&file, index_length(file.len()), MESSAGE_LENGTH);
        match (answer, decode(&file)) {
            (Answer::Refused(refusal), Err(stop)) => assert_eq!(refusal, stop.refusal),
            (Answer::Refused(_), Ok(_)) => panic!("{} is decoded", block.name),
            (_, Err(stop)) => panic!("{}: {stop}", block.name),
            (_, Ok(story)) => assert_eq!(story.encode(), Ok(file), "{}", block.name),
        }
    }
}

#[test]
fn every_breach_lies_in_a_piece_that_starts_at_its_place_or_is_named_there() {
    for (block, file) in vectors() {
        let (answer, _, _) = checked(&file, index_length(file.len()), MESSAGE_LENGTH);
        if let Answer::Breach(breach) = answer {
            let outline = outline(&file);
            let around = outline.around(breach.place as usize);
            let last = around.last().expect("a place lies in a piece");
            let fits = last.start == breach.place as usize || breach.rule.number() == 5;
            assert!(fits, "{}: {last:?}", block.name);
        }
    }
}
