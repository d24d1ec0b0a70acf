//! The pieces of the flat story file as bytes: names, records, lists and the trailer.

/// The longest file that is not refused.
pub const LONGEST_FILE: usize = 1_048_576;

/// The length of the trailer.
pub const TRAILER: usize = 20;

/// The last four bytes of every file.
pub const MARK: [u8; 4] = [0x49, 0x4B, 0x01, 0x00];

/// The largest depth of a record.
pub const DEEPEST: usize = 64;

/// A count byte and the bytes of a name of at most 255 bytes.
pub fn name(bytes: &[u8]) -> Vec<u8> {
    let count = u8::try_from(bytes.len()).expect("a name has at most 255 bytes");
    [&[count], bytes].concat()
}

/// A 32-bit length and the bytes that it counts: a list, a flow or a stitch.
pub fn sized(bytes: &[u8]) -> Vec<u8> {
    [&number(bytes.len()), bytes].concat()
}

/// A node, expression or condition: kind byte, 32-bit payload length, payload.
pub fn record(kind: u8, payload: &[u8]) -> Vec<u8> {
    [&[kind], sized(payload).as_slice()].concat()
}

/// The four sections in order and the trailer that points back to them.
pub fn file(globals: &[u8], externals: &[u8], root: &[u8], flows: &[u8]) -> Vec<u8> {
    let starts = [
        0,
        globals.len(),
        globals.len() + externals.len(),
        globals.len() + externals.len() + root.len(),
    ];
    let sections = [globals, externals, root, flows].concat();
    [sections, trailer(starts)].concat()
}

/// The trailer with these section starts.
pub fn trailer(starts: [usize; 4]) -> Vec<u8> {
    let mut bytes = Vec::new();
    for start in starts {
        bytes.extend(number(start));
    }
    bytes.extend(MARK);
    bytes
}

/// A 32-bit little-endian number.
pub fn number(value: usize) -> [u8; 4] {
    u32::try_from(value)
        .expect("a length or start has 32 bits")
        .to_le_bytes()
}
