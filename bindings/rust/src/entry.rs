//! The entries of an index and how they are spelled.

/// One entry: places of count bytes, as far as there are names.
#[derive(Debug, Clone, Copy, PartialEq, Eq, Hash)]
pub struct Entry {
    /// The flow whose name is put before the own name.
    pub flow: Option<u32>,
    /// The stitch whose name is put before the own name.
    pub stitch: Option<u32>,
    /// The own name.
    pub name: u32,
}

/// The first so many entries of an index.
pub fn entries(index: &[u32], count: u32) -> impl Iterator<Item = Entry> {
    let some = |place: u32| (place != u32::MAX).then_some(place);
    let written = index.chunks_exact(3).take(count as usize);
    written.map(move |numbers| Entry {
        flow: some(numbers[0]),
        stitch: some(numbers[1]),
        name: numbers[2],
    })
}

impl Entry {
    /// The names present, joined by "."; the file is the one whose index this entry is from.
    ///
    /// ```
    /// use qaabireed::{Flow, Stitch, Story, Validator};
    ///
    /// let file = Story::new()
    ///     .flow(Flow::knot("hall").stitch(Stitch::new("dark")))
    ///     .encode()?;
    /// let mut validator = Validator::new();
    /// validator.check_bytes(&file);
    /// let spelled: Vec<_> = validator.entries().map(|entry| entry.spelling(&file)).collect();
    /// assert_eq!(spelled, [b"hall".to_vec(), b"hall.dark".to_vec()]);
    /// # Ok::<(), qaabireed::EncodeError>(())
    /// ```
    pub fn spelling(&self, file: &[u8]) -> Vec<u8> {
        let places = [self.flow, self.stitch, Some(self.name)];
        let names: Vec<&[u8]> = places
            .into_iter()
            .flatten()
            .map(|p| name(file, p))
            .collect();
        names.join(&b"."[..])
    }
}

/// The bytes of the name whose count byte is at a place; nothing where the file is another one.
pub(crate) fn name(file: &[u8], place: u32) -> &[u8] {
    let rest = file.get(place as usize..).unwrap_or(&[]);
    match rest.split_first() {
        Some((count, bytes)) => bytes.get(..usize::from(*count)).unwrap_or(&[]),
        None => &[],
    }
}

#[cfg(test)]
mod tests {
    use super::*;

    #[test]
    fn a_wrong_file_spells_nothing_and_does_not_panic() {
        let entry = Entry {
            flow: None,
            stitch: Some(7),
            name: 2,
        };
        assert_eq!(entry.spelling(b"\x01a\x05b"), b".");
    }

    #[test]
    fn the_rest_of_an_index_is_no_entry() {
        let index = [u32::MAX, u32::MAX, 4, 1, 2, 3, 9];
        let all: Vec<Entry> = entries(&index, 1).collect();
        assert_eq!(all.len(), 1);
        assert_eq!((all[0].flow, all[0].name), (None, 4));
        assert_eq!(entries(&index, 9).count(), 2);
    }
}
