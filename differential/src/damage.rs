//! Damaged copies of readable files.

use crate::decode::{Field, decode};
use crate::layout::{TRAILER, trailer};
use crate::random::Random;

/// A copy of a readable file with up to three faults; some copies stay readable.
pub fn damaged(random: &mut Random, file: &[u8]) -> Vec<u8> {
    let fields = decode(file).map_or(Vec::new(), |decoded| decoded.fields);
    match random.below(6) {
        0 => moved(random, file.to_vec()),
        1 => {
            let copy = moved(random, file.to_vec());
            with_wrong_fields(random, copy, &[])
        }
        2 | 3 => with_container_off(random, file, &fields),
        _ => with_wrong_fields(random, file.to_vec(), &fields),
    }
}

/// One byte more or less at the end of a container, with all lengths and starts around it set right.
fn with_container_off(random: &mut Random, file: &[u8], fields: &Fields) -> Vec<u8> {
    let mut copy = file.to_vec();
    let Some((chosen, _)) = pick(random, fields, |field| field == Field::Length) else {
        return copy;
    };
    let end_of = |place: usize| place + 4 + number_at(file, place) as usize;
    let end = end_of(chosen);
    let shorter = end > chosen + 4 && random.once_in(2);
    let lengths = fields.iter().filter(|(_, field)| *field == Field::Length);
    let around = lengths.filter(|(place, _)| *place <= chosen && end_of(*place) >= end);
    for (place, _) in around {
        let length = number_at(file, *place);
        let new = if shorter { length - 1 } else { length + 1 };
        copy[*place..*place + 4].copy_from_slice(&new.to_le_bytes());
    }
    let starts = starts(file).expect("a file with fields is readable");
    let moved = starts.map(|start| match start >= end {
        true if shorter => start - 1,
        true => start + 1,
        false => start,
    });
    match shorter {
        true => drop(copy.remove(end - 1)),
        false => copy.insert(end, random.below(3) as u8),
    }
    set_trailer(&mut copy, moved);
    copy
}

/// A copy in which bytes are missing, added or counted to another section.
fn moved(random: &mut Random, file: Vec<u8>) -> Vec<u8> {
    match random.below(6) {
        0 => truncated(random, file),
        1 | 2 => with_moved_start(random, file),
        3 | 4 => with_byte_removed(random, file),
        _ => with_byte_added(random, file),
    }
}

/// A copy with one or two wrong bytes or lengths.
fn with_wrong_fields(random: &mut Random, mut file: Vec<u8>, fields: &Fields) -> Vec<u8> {
    for _ in 0..1 + random.below(2) {
        match random.below(6) {
            0 => flip(random, &mut file),
            1 | 2 => set_length_off(random, &mut file, fields),
            3 => set_count_off(random, &mut file, fields),
            4 => raise_byte(random, &mut file, fields),
            _ => set_other_meaning(random, &mut file, fields),
        }
    }
    file
}

/// The places of a file's fields.
type Fields = [(usize, Field)];

/// Changes one bit anywhere.
fn flip(random: &mut Random, file: &mut [u8]) {
    if !file.is_empty() {
        file[random.below(file.len())] ^= 1 << random.below(8);
    }
}

/// Bytes missing at the end.
fn truncated(random: &mut Random, mut file: Vec<u8>) -> Vec<u8> {
    let lost = random.below(file.len().min(24) + 1);
    file.truncate(file.len() - lost);
    file
}

/// A random field that passes a test.
fn pick(random: &mut Random, fields: &Fields, test: fn(Field) -> bool) -> Option<(usize, Field)> {
    let passing: Vec<_> = fields.iter().filter(|(_, field)| test(*field)).collect();
    match passing.is_empty() {
        true => None,
        false => Some(**random.pick(&passing)),
    }
}

/// Sets a 32-bit length one off, or huge.
fn set_length_off(random: &mut Random, file: &mut [u8], fields: &Fields) {
    if let Some((place, _)) = pick(random, fields, |field| field == Field::Length) {
        let length = number_at(file, place);
        let new = match random.below(5) {
            0 | 1 => length.wrapping_add(1),
            2 | 3 => length.wrapping_sub(1),
            _ => u32::MAX - random.below(8) as u32,
        };
        file[place..place + 4].copy_from_slice(&new.to_le_bytes());
    }
}

/// Sets a name's or parameter list's count one off.
fn set_count_off(random: &mut Random, file: &mut [u8], fields: &Fields) {
    if let Some((place, _)) = pick(random, fields, |field| field == Field::Count) {
        file[place] = match random.once_in(2) {
            true => file[place].wrapping_add(1),
            false => file[place].wrapping_sub(1),
        };
    }
}

/// Sets a kind, flag or mode just past its meanings, or far past.
fn raise_byte(random: &mut Random, file: &mut [u8], fields: &Fields) {
    if let Some((place, field)) = pick(random, fields, |field| meanings(field) > 0) {
        file[place] = match random.once_in(3) {
            true => 128 + random.below(128) as u8,
            false => meanings(field),
        };
    }
}

/// Sets a kind, flag or mode to another value that has a meaning.
fn set_other_meaning(random: &mut Random, file: &mut [u8], fields: &Fields) {
    if let Some((place, field)) = pick(random, fields, |field| meanings(field) > 0) {
        file[place] = random.below(meanings(field).into()) as u8;
    }
}

/// The 32-bit number at a place.
fn number_at(file: &[u8], place: usize) -> u32 {
    u32::from_le_bytes(file[place..place + 4].try_into().unwrap())
}

/// How many values of a field have a meaning.
fn meanings(field: Field) -> u8 {
    match field {
        Field::NodeKind => 17,
        Field::ExpressionKind => 7,
        Field::ConditionKind => 3,
        Field::Flag => 2,
        Field::Mode => 4,
        Field::Count | Field::Length => 0,
    }
}

/// A section start one off, or any number.
fn with_moved_start(random: &mut Random, mut file: Vec<u8>) -> Vec<u8> {
    if file.len() < TRAILER {
        return file;
    }
    let sections = file.len() - TRAILER;
    let place = sections + 4 * random.below(4);
    let start = number_at(&file, place);
    let new = match random.below(5) {
        0 | 1 => start.wrapping_add(1),
        2 => start.wrapping_sub(1),
        3 => random.below(sections + 2) as u32,
        _ => random.number() as u32,
    };
    file[place..place + 4].copy_from_slice(&new.to_le_bytes());
    file
}

/// One byte of a section missing, the starts behind it set right.
fn with_byte_removed(random: &mut Random, mut file: Vec<u8>) -> Vec<u8> {
    if let Some(starts) = starts(&file)
        && file.len() > TRAILER
    {
        let place = random.below(file.len() - TRAILER);
        file.remove(place);
        let moved = starts.map(|start| start - usize::from(start > place));
        set_trailer(&mut file, moved);
    }
    file
}

/// One byte more in a section, the starts behind it set right.
fn with_byte_added(random: &mut Random, mut file: Vec<u8>) -> Vec<u8> {
    if let Some(starts) = starts(&file) {
        let place = random.below(file.len() - TRAILER + 1);
        file.insert(place, random.below(20) as u8);
        let moved = starts.map(|start| start + usize::from(start > place));
        set_trailer(&mut file, moved);
    }
    file
}

/// The section starts of a readable file.
fn starts(file: &[u8]) -> Option<[usize; 4]> {
    decode(file).ok()?;
    let end = file.len() - TRAILER;
    let start = |number: usize| number_at(file, end + 4 * number) as usize;
    Some([start(0), start(1), start(2), start(3)])
}

/// Writes section starts over a file's trailer.
fn set_trailer(file: &mut Vec<u8>, starts: [usize; 4]) {
    file.truncate(file.len() - TRAILER);
    file.extend(trailer(starts));
}
