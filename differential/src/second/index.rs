//! The entries of the index and their spellings.

use super::reader::{Body, Name, Story};
use super::walks::labels;

/// The number that stands where an entry or a result has no name.
pub const NONE: u32 = 4_294_967_295;

/// Flow, stitch, own name: places of count bytes or none.
pub type Entry = [u32; 3];

/// All entries in order.
pub fn entries(story: &Story) -> Vec<Entry> {
    let alone = |name: &Name| [NONE, NONE, name.place];
    let mut entries: Vec<Entry> = story.globals.iter().map(alone).collect();
    entries.extend(labels(&story.root).iter().map(alone));
    for flow in &story.flows {
        let own = &flow.own;
        entries.push(alone(&own.name));
        entries.extend(own.parameters.iter().map(alone));
        let prefix = match own.name.bytes {
            [] => NONE,
            _ => own.name.place,
        };
        entries.extend(labels(&own.nodes).iter().map(|l| [prefix, NONE, l.place]));
        for stitch in &flow.stitches {
            entries.extend(stitch_entries(own.name.place, stitch));
        }
    }
    entries
}

/// The entries of one stitch: its name, parameters, labels.
fn stitch_entries(flow: u32, stitch: &Body) -> Vec<Entry> {
    let mut entries = vec![[flow, NONE, stitch.name.place]];
    for parameter in &stitch.parameters {
        entries.push([NONE, NONE, parameter.place]);
    }
    for label in labels(&stitch.nodes) {
        entries.push([flow, stitch.name.place, label.place]);
    }
    entries
}

/// The names present in an entry, joined by ".".
pub fn spelling(file: &[u8], entry: &Entry) -> Vec<u8> {
    let present = entry.iter().filter(|place| **place != NONE);
    let names: Vec<&[u8]> = present.map(|place| name_at(file, *place)).collect();
    names.join(&b"."[..])
}

/// The bytes of the name whose count byte is at a place.
pub fn name_at(file: &[u8], place: u32) -> &[u8] {
    let start = place as usize + 1;
    &file[start..start + file[start - 1] as usize]
}
