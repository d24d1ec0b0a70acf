//! The limits over the archive, each with its neighbour: file length, index, message buffer and depth.

use qaabireed::layout::{DEEPEST, LONGEST_FILE, MARK, MESSAGE_LENGTH, TRAILER, index_length};
use qaabireed::{
    Answer, Choice, EncodeError, Expression, Flow, Found, Lookup, Name, Node, Refusal, Rule,
    Stitch, Story, Validator, check, entries, lookup,
};

/// What lent buffers hold before a call.
const OLD_NUMBER: u32 = 0xA5A5_5A5A;
const OLD_BYTE: u8 = 0xA5;

/// The entries of a chapter: the knot, its parameter, two labels, its stitch with parameter and label.
const ENTRIES_OF_CHAPTER: u32 = 7;

/// How many chapters the longest story has; names of globals fill the rest of it.
const CHAPTERS: u32 = 4000;

/// One chapter, whose labels no other chapter has.
fn chapter(number: u32) -> Flow {
    let scene = Stitch::new(format!("scene_{number}"))
        .parameter("mood")
        .node(Node::gather(format!("rest_{number}")))
        .node(Node::divert("DONE"));
    let choice = Choice::new()
        .label(format!("choose_{number}"))
        .node(Node::divert(format!("scene_{number}")));
    Flow::knot(format!("chapter_{number}"))
        .divert_parameter("way")
        .node(Node::Plain)
        .node(choice)
        .node(Node::gather(format!("after_{number}")))
        .node(Node::divert("way"))
        .stitch(scene)
}

/// A story whose file has exactly so many bytes, and how many entries it has.
fn story_of_length(chapters: u32, length: usize) -> (Story, u32) {
    let mut story = Story::new().external("ring").node(Node::gather("start"));
    story.flows = (0..chapters).map(chapter).collect();
    let mut count = 1 + chapters * ENTRIES_OF_CHAPTER;
    let mut rest = length - story.encode().unwrap().len();
    while rest > 0 {
        let name = rest.min(256) - 1;
        story.globals.push(Name::from("n".repeat(name)));
        rest -= name + 1;
        count += 1;
    }
    (story, count)
}

/// The longest file and its entry count.
fn longest() -> (Vec<u8>, u32) {
    let (story, count) = story_of_length(CHAPTERS, LONGEST_FILE);
    (story.encode().unwrap(), count)
}

/// A readable file with one global of no bytes more, which makes it one byte longer.
fn with_empty_global(file: &[u8]) -> Vec<u8> {
    grown(file, file.len() + 1)
}

/// A readable file with globals of no bytes before its own, which make it so long.
fn grown(file: &[u8], length: usize) -> Vec<u8> {
    let added = length - file.len();
    let mut longer = [&vec![0; added], file].concat();
    for number in 1..4 {
        let place = longer.len() - TRAILER + 4 * number;
        let start = [0, 1, 2, 3].map(|byte| longer[place + byte]);
        let start = u32::from_le_bytes(start) + u32::try_from(added).unwrap();
        longer[place..place + 4].copy_from_slice(&start.to_le_bytes());
    }
    longer
}

/// A check with buffers of these lengths, and what it leaves in them.
fn checked(file: &[u8], index: usize, message: usize) -> (Answer, Vec<u32>, Vec<u8>) {
    let mut index = vec![OLD_NUMBER; index];
    let mut message = vec![OLD_BYTE; message];
    let answer = check(file, &mut index, &mut message);
    (answer, index, message)
}

/// Holds a check with buffers of these lengths to a refusal that writes nothing.
fn assert_refused(file: &[u8], index: usize, message: usize, refusal: Refusal) {
    let (answer, index, message) = checked(file, index, message);
    assert_eq!(answer, Answer::Refused(refusal));
    assert!(index.iter().all(|number| *number == OLD_NUMBER));
    assert!(message.iter().all(|byte| *byte == OLD_BYTE));
}

#[test]
fn the_longest_file_is_accepted_with_an_index_just_long_enough() {
    let (file, count) = longest();
    assert_eq!(file.len(), 1_048_576);
    let (answer, index, message) = checked(&file, 3 * (1_048_576 - 20), MESSAGE_LENGTH);
    assert_eq!(answer, Answer::Accepted { entries: count });
    let written = 3 * count as usize;
    assert!(!index[..written].contains(&OLD_NUMBER));
    assert!(index[written..].iter().all(|one| *one == OLD_NUMBER));
    assert!(message.iter().all(|byte| *byte == OLD_BYTE));
    let spelled: Vec<Vec<u8>> = entries(&index, count)
        .map(|entry| entry.spelling(&file))
        .collect();
    assert_eq!(spelled[0], [b'n'; 255]);
    let last = "chapter_3999.scene_3999.rest_3999";
    assert_eq!(spelled.last().unwrap(), last.as_bytes());
}

#[test]
fn one_byte_more_is_refused_though_the_file_is_sound() {
    let (short, count) = story_of_length(3, 1000);
    let longer = with_empty_global(&short.encode().unwrap());
    let answer = Validator::new().check_bytes(&longer);
    assert_eq!(answer, Answer::Accepted { entries: count + 1 });
    let (file, _) = longest();
    let longer = with_empty_global(&file);
    assert_eq!(longer.len(), 1_048_577);
    let index = index_length(longer.len());
    assert_refused(&longer, index, MESSAGE_LENGTH, Refusal::Length);
    let found = lookup(&longer, &mut vec![0; index], b"END");
    assert_eq!(found, Lookup::Refused(Refusal::Length));
}

#[test]
fn no_story_is_encoded_to_one_byte_more() {
    let (story, _) = story_of_length(CHAPTERS, LONGEST_FILE);
    let length = LONGEST_FILE + 1;
    assert_eq!(
        story.global("").encode(),
        Err(EncodeError::FileTooLong { length })
    );
}

#[test]
fn buffers_one_short_are_refused_for_the_longest_file() {
    let (file, _) = longest();
    let enough = index_length(file.len());
    assert_refused(&file, enough - 1, MESSAGE_LENGTH, Refusal::Index);
    assert_refused(&file, enough - 1, 639, Refusal::Index);
    assert_refused(&file, enough, 639, Refusal::Message);
    assert_refused(&file, enough, 0, Refusal::Message);
}

#[test]
fn the_longest_file_is_searched_to_its_last_label() {
    let (file, count) = longest();
    let mut index = vec![OLD_NUMBER; index_length(file.len())];
    let found = |found: Found| Lookup::Answered {
        found,
        entries: count,
    };
    let last = lookup(&file, &mut index, b"rest_3999");
    assert_eq!(last, found(Found::Ending(count - 1)));
    let missing = lookup(&file, &mut index, b"rest_4000");
    assert_eq!(missing, found(Found::Missing));
    index.fill(OLD_NUMBER);
    index.pop();
    let refused = lookup(&file, &mut index, b"rest_3999");
    assert_eq!(refused, Lookup::Refused(Refusal::Index));
    assert!(index.iter().all(|number| *number == OLD_NUMBER));
}

/// A record.
fn record(kind: u8, payload: &[u8]) -> Vec<u8> {
    [&[kind], &sized(payload)[..]].concat()
}

/// A length and what it counts.
fn sized(inside: &[u8]) -> Vec<u8> {
    [&(inside.len() as u32).to_le_bytes(), inside].concat()
}

/// The file of a root.
fn file_of_root(root: &[u8]) -> Vec<u8> {
    let length = root.len() as u32;
    [root, &[0; 12], &length.to_le_bytes(), &MARK].concat()
}

/// The file of an output around negations, the constant in which has this depth.
fn negations(depth: usize) -> Vec<u8> {
    let inside = (2..depth).fold(record(0, &[]), |inside, _| record(3, &inside));
    file_of_root(&record(2, &inside))
}

/// The file of sequences in one another, the innermost of which has this depth.
fn sequences(depth: usize) -> Vec<u8> {
    let inside = (1..depth).fold(record(10, &[]), |inside, _| record(10, &sized(&inside)));
    file_of_root(&inside)
}

/// The story of `negations`.
fn negation_story(depth: usize) -> Story {
    let wrap = |value, _| Expression::negate(value);
    let value = (2..depth).fold(Expression::Constant, wrap);
    Story::new().node(Node::output(value))
}

/// The story of `sequences`.
fn sequence_story(depth: usize) -> Story {
    let wrap = |node, _| Node::sequence([vec![node]]);
    Story::new().node((1..depth).fold(Node::sequence([]), wrap))
}

#[test]
fn depth_64_is_accepted_and_65_refused() {
    assert_eq!(negation_story(64).encode(), Ok(negations(64)));
    assert_eq!(sequence_story(64).encode(), Ok(sequences(64)));
    for nested in [negations, sequences] {
        let mut validator = Validator::new();
        let deepest = validator.check_bytes(&nested(64));
        assert_eq!(deepest, Answer::Accepted { entries: 0 });
        let deeper = nested(65);
        let index = index_length(deeper.len());
        assert_refused(&deeper, index, MESSAGE_LENGTH, Refusal::Depth);
    }
}

/// A record of these pieces.
fn joined(kind: u8, pieces: &[&[u8]]) -> Vec<u8> {
    record(kind, &pieces.concat())
}

/// A node around another.
type Way = fn(&[u8]) -> Vec<u8>;

/// How a node goes into another: a sequence, either branch of a conditional, a case of a switch,
/// a choice with a label.
const WAYS: [Way; 5] = [
    |node| record(10, &sized(node)),
    |node| joined(8, &[&record(0, &[]), &sized(node), &[0]]),
    |node| joined(8, &[&record(0, &[]), &sized(&[]), &[1], &sized(node)]),
    |node| joined(9, &[&record(0, &[]), &[1], &record(0, &[]), &sized(node)]),
    |node| joined(14, &[&[1, 1, b'a'], &sized(&[]), &sized(node)]),
];

/// For each way, the file of nodes in one another, the innermost of which has this depth.
fn nested(depth: usize) -> Vec<Vec<u8>> {
    let file = |way: Way| {
        let inside = (1..depth).fold(record(0, &[]), |inside, _| way(&inside));
        file_of_root(&inside)
    };
    WAYS.map(file).to_vec()
}

#[test]
fn calls_fit_a_stack_of_1792_kib() {
    let (longest, _) = longest();
    let mut files = vec![(longest, false)];
    for length in [4096, 4097, 65536, 65537, LONGEST_FILE] {
        files.push((grown(&negations(64), length), false));
        files.extend(nested(64).iter().map(|deep| (grown(deep, length), false)));
        files.extend(nested(65).iter().map(|deep| (grown(deep, length), true)));
    }
    let calls = move || {
        let mut validator = Validator::new();
        for (file, refused) in &files {
            let answer = validator.check_bytes(file);
            assert_eq!(answer == Answer::Refused(Refusal::Depth), *refused);
            let found = validator.lookup_bytes(file, b"nowhere");
            assert_eq!(found == Lookup::Refused(Refusal::Depth), *refused);
        }
    };
    let thread = std::thread::Builder::new().stack_size(1792 * 1024);
    thread.spawn(calls).unwrap().join().unwrap();
}

#[test]
fn no_story_is_encoded_to_depth_65() {
    let stories = [negation_story(DEEPEST + 1), sequence_story(DEEPEST + 1)];
    for story in stories {
        assert_eq!(story.encode(), Err(EncodeError::TooDeep));
    }
}

#[test]
fn a_bad_divert_in_a_knot_comes_before_the_gathers_of_the_root() {
    let gathers = Story::new().node(Node::gather("a")).node(Node::gather("a"));
    let mut validator = Validator::new();
    // Each gather has 7 bytes; the name is 5 behind the kind byte.
    let Answer::Breach(breach) = validator.check_story(&gathers).unwrap() else {
        panic!("a breach");
    };
    assert_eq!(breach.rule, Rule::RepeatedGather);
    assert_eq!((breach.place, breach.names), (7, [Some(12), None]));
    // The flow starts at 14: length, flag 18, name 19 and 20, no parameters, list length 23 to 26.
    let knot = Flow::knot("k").node(Node::divert("nowhere"));
    let Answer::Breach(breach) = validator.check_story(&gathers.flow(knot)).unwrap() else {
        panic!("a breach");
    };
    assert_eq!(breach.rule.number(), 2);
    assert_eq!((breach.place, breach.names), (27, [Some(32), None]));
    assert_eq!(breach.to_string(), "Divert target not found: '-> nowhere'");
    assert_eq!(breach.entries, 3);
}
