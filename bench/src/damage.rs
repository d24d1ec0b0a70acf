//! Damaged copies of a file.

use differential::decode::{Field, decode};

/// A copy in which the node that lies so many hundredths into the file has a kind without a meaning.
pub fn with_wrong_kind(file: &[u8], hundredths: usize) -> Vec<u8> {
    let decoded = decode(file).expect("the file is readable");
    let nodes = decoded
        .fields
        .iter()
        .filter(|(_, field)| *field == Field::NodeKind);
    let places: Vec<usize> = nodes.map(|(place, _)| *place).collect();
    let chosen = (places.len() - 1) * hundredths / 100;
    let mut copy = file.to_vec();
    copy[places[chosen]] = 17;
    copy
}
