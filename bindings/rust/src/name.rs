//! Names: bytes, nearly always UTF-8.

use std::borrow::Cow;
use std::fmt;

/// A name as the file has it; bytes that are not UTF-8 are kept.
///
/// ```
/// use qaabireed::Name;
/// assert_eq!(Name::from("hall").to_string(), "hall");
/// assert_eq!(Name::from(&b"hall"[..]), "hall");
/// ```
#[derive(Clone, Default, PartialEq, Eq, PartialOrd, Ord, Hash)]
pub struct Name(Vec<u8>);

impl Name {
    /// The bytes.
    pub fn as_bytes(&self) -> &[u8] {
        &self.0
    }

    /// The name as text, with U+FFFD for what is not UTF-8.
    pub fn to_text(&self) -> Cow<'_, str> {
        String::from_utf8_lossy(&self.0)
    }

    /// The name for a line of text, with `\\xNN` for bytes that are not UTF-8 or of control characters.
    pub fn shown(&self) -> String {
        shown(&self.0)
    }
}

/// Bytes for a line of text, with `\\xNN` for those that are not UTF-8 or of control characters.
///
/// ```
/// assert_eq!(qaabireed::shown("caf\u{e9}\n".as_bytes()), "caf\u{e9}\\x0a");
/// assert_eq!(qaabireed::shown(b"caf\xe9"), "caf\\xe9");
/// ```
pub fn shown(bytes: &[u8]) -> String {
    let mut text = String::with_capacity(bytes.len());
    for chunk in bytes.utf8_chunks() {
        for character in chunk.valid().chars() {
            match character.is_control() {
                true => escape(character.encode_utf8(&mut [0; 4]).as_bytes(), &mut text),
                false => text.push(character),
            }
        }
        escape(chunk.invalid(), &mut text);
    }
    text
}

/// Adds `\\xNN` for each byte.
fn escape(bytes: &[u8], text: &mut String) {
    for byte in bytes {
        text.push_str(&format!("\\x{byte:02x}"));
    }
}

impl fmt::Display for Name {
    /// The name as text, with U+FFFD for what is not UTF-8.
    fn fmt(&self, f: &mut fmt::Formatter<'_>) -> fmt::Result {
        self.to_text().fmt(f)
    }
}

impl fmt::Debug for Name {
    /// The name in quotes, with escapes for what is not UTF-8.
    fn fmt(&self, f: &mut fmt::Formatter<'_>) -> fmt::Result {
        write!(f, "\"{}\"", self.0.escape_ascii())
    }
}

impl From<&str> for Name {
    fn from(text: &str) -> Self {
        Name(text.as_bytes().to_vec())
    }
}

impl From<String> for Name {
    fn from(text: String) -> Self {
        Name(text.into_bytes())
    }
}

impl From<&String> for Name {
    fn from(text: &String) -> Self {
        Name(text.as_bytes().to_vec())
    }
}

impl From<&[u8]> for Name {
    fn from(bytes: &[u8]) -> Self {
        Name(bytes.to_vec())
    }
}

impl From<Vec<u8>> for Name {
    fn from(bytes: Vec<u8>) -> Self {
        Name(bytes)
    }
}

impl PartialEq<str> for Name {
    fn eq(&self, text: &str) -> bool {
        self.0 == text.as_bytes()
    }
}

impl PartialEq<&str> for Name {
    fn eq(&self, text: &&str) -> bool {
        self.0 == text.as_bytes()
    }
}
