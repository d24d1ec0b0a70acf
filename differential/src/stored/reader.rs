//! Files for the reading pass: refusals 1 to 6 at each kind of field, files cut short, the numbers kept, and the limits.

use super::{Stored, kept, short, whole};
use crate::encode::encode;
use crate::layout::{LONGEST_FILE, TRAILER, file, record};
use crate::limits::{NESTINGS, nested, placed};
use crate::second;
use crate::vectors;

/// What the lent numbers are before a file is read.
const BLANK: u32 = 2_779_096_485;

/// The files with their lines, then the lines of the longest files, which the program builds itself.
pub fn stored() -> Stored {
    let mut input = Vec::new();
    let mut output = Vec::new();
    for file in files() {
        input.extend(short(file.len()));
        input.extend(&file);
        output.extend(lines(&file));
    }
    for file in longest() {
        output.extend(lines(&file));
    }
    Stored {
        input,
        output: Some(output),
    }
}

/// All files that stand in the input, in order.
pub fn files() -> Vec<Vec<u8>> {
    let whole = encode(&whole::whole()).expect("the story is within the limits");
    let mut files = table();
    files.extend(vectors::readings().into_iter().map(|vector| vector.input));
    files.extend(deep());
    files.extend((0..=whole.len()).map(|length| whole[..length].to_vec()));
    files.extend(cut_sections(&whole));
    files.extend(kept::files());
    files
}

/// What the program writes for a file: a line for each length of the lent numbers, which are all 0 after a refused one.
fn lines(file: &[u8]) -> Vec<u8> {
    let second::Kept {
        refusal,
        met,
        numbers,
    } = second::kept(file);
    let answer = match refusal {
        None => format!("read {} {met}", numbers.len()),
        Some(refusal) => format!("refused {refusal}"),
    };
    let left = |lent| match refusal {
        None => filled(lent, &numbers),
        Some(_) => vec![0; lent],
    };
    let line = |lent| format!("{answer} {}\n", checksum(&left(lent)));
    kept::LENT.map(line).concat().into_bytes()
}

/// So many lent numbers once reading has put its own into them, as far as they reach.
fn filled(lent: usize, numbers: &[u32]) -> Vec<u32> {
    let rest = std::iter::repeat(&BLANK);
    numbers.iter().chain(rest).take(lent).copied().collect()
}

/// Each number after 31 times those before it, in 32 bits.
fn checksum(numbers: &[u32]) -> u32 {
    let with_number = |sum: u32, number: &u32| sum.wrapping_mul(31).wrapping_add(*number);
    numbers.iter().fold(0, with_number)
}

/// The longest file and one that is a byte longer, of nothing but empty globals; and the longest with a gather at its end.
fn longest() -> [Vec<u8>; 3] {
    let globals = |length: usize| vec![0; length];
    let gather = record(15, &[0]);
    let most = LONGEST_FILE - TRAILER;
    [
        file(&globals(most), &[], &[], &[]),
        file(&globals(most + 1), &[], &[], &[]),
        file(&globals(most - gather.len()), &[], &gather, &[]),
    ]
}

/// The examples of the scope paper's table, refusals 1 to 6, and the shortest file that is read.
fn table() -> Vec<Vec<u8>> {
    let empty = file(&[], &[], &[], &[]);
    let mut start = empty.clone();
    start[0] = 1;
    vec![
        vec![],
        vec![0; 20],
        start,
        file(&[5], &[], &[], &[]),
        file(&[], &[], &record(17, &[]), &[]),
        file(&[], &[], &nested(0, 65), &[]),
        empty[1..].to_vec(),
        empty,
    ]
}

/// Every way to nest records, at the greatest depth and one deeper, in the root, a flow and a stitch.
fn deep() -> Vec<Vec<u8>> {
    let mut files = Vec::new();
    for way in 0..NESTINGS {
        let body = way % 3;
        files.push(placed(body, &nested(way, 64)));
        files.push(placed(body, &nested(way, 65)));
    }
    files
}

/// A file with each section in turn cut at every length, behind it the trailer that fits.
fn cut_sections(whole: &[u8]) -> Vec<Vec<u8>> {
    let sections = sections(whole);
    let mut files = Vec::new();
    for cut in 0..sections.len() {
        for length in 0..=sections[cut].len() {
            let mut parts = sections;
            parts[cut] = &sections[cut][..length];
            let [globals, externals, root, flows] = parts;
            files.push(file(globals, externals, root, flows));
        }
    }
    files
}

/// The four sections of a readable file.
fn sections(whole: &[u8]) -> [&[u8]; 4] {
    let end = whole.len() - TRAILER;
    let start = |number: usize| match number {
        4 => end,
        _ => {
            let at = end + 4 * number;
            let bytes = [whole[at], whole[at + 1], whole[at + 2], whole[at + 3]];
            u32::from_le_bytes(bytes) as usize
        }
    };
    [0, 1, 2, 3].map(|number| &whole[start(number)..start(number + 1)])
}
