//! The limits and fixed bytes of the flat story file, and the lengths of lent buffers.

/// The longest file that is not refused.
pub const LONGEST_FILE: usize = 1_048_576;

/// The length of the trailer, and of the shortest file.
pub const TRAILER: usize = 20;

/// The last four bytes of every file.
pub const MARK: [u8; 4] = [0x49, 0x4B, 0x01, 0x00];

/// The largest depth of a record.
pub const DEEPEST: usize = 64;

/// The longest name, and the most parameters of a flow or stitch.
pub const LONGEST_NAME: usize = 255;

/// The shortest message buffer that is not refused.
pub const MESSAGE_LENGTH: usize = 640;

/// The extension of flat story files, which `ink-check` looks for in folders.
pub const EXTENSION: &str = "inkb";

/// The shortest index that is not refused for a file of this length.
///
/// ```
/// assert_eq!(qaabireed::layout::index_length(21), 3);
/// ```
pub const fn index_length(file_length: usize) -> usize {
    3 * file_length.saturating_sub(TRAILER)
}
