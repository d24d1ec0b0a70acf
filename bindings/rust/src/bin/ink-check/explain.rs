//! Where in a story a place lies.

use crate::verdict::Verdict;
use qaabireed::layout::TRAILER;
use qaabireed::{Piece, Refusal, Sort, outline};

/// Where a place lies.
pub struct Location {
    /// The place.
    pub place: usize,
    /// The section, or `trailer`.
    pub section: &'static str,
    /// The knot or function.
    pub flow: Option<Piece>,
    /// The stitch.
    pub stitch: Option<Piece>,
    /// The pieces from the root, flow or declaration down to the place.
    pub path: Vec<Piece>,
}

/// Where a breach lies, or where the reading of a refused file stopped; one of a wrong length is not read.
pub fn location(verdict: &Verdict) -> Option<Location> {
    match verdict {
        Verdict::Breach { file, breach } => Some(locate(file, breach.place as usize)),
        Verdict::Refused { file, refusal } if *refusal != Refusal::Length => {
            let stop = outline(file).stop?;
            Some(locate(file, stop.place))
        }
        _ => None,
    }
}

/// Where a place of a file lies, as far as the file can be read.
fn locate(file: &[u8], place: usize) -> Location {
    let outline = outline(file);
    let around = outline.around(place);
    let of = |sort: Sort| around.iter().copied().find(|piece| piece.sort == sort);
    Location {
        place,
        section: of(Sort::Section).map_or(default_section(file, place), |piece| piece.title),
        flow: of(Sort::Flow).cloned(),
        stitch: of(Sort::Stitch).cloned(),
        path: path(&around),
    }
}

/// What a place outside all sections met lies in.
fn default_section(file: &[u8], place: usize) -> &'static str {
    match place + TRAILER >= file.len() {
        true => "trailer",
        false => "file",
    }
}

/// The pieces without the section of flows, which says nothing.
fn path(around: &[&Piece]) -> Vec<Piece> {
    let telling = around.iter().filter(|piece| piece.title != "flows");
    telling.map(|piece| Piece::clone(piece)).collect()
}
