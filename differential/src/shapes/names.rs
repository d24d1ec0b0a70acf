//! Names by number: short ones, long ones that are nearly alike, and ones with dots.

/// The letters of numbered names.
const LETTERS: &[u8; 63] = b"abcdefghijklmnopqrstuvwxyzABCDEFGHIJKLMNOPQRSTUVWXYZ0123456789_";

/// So many letters that tell a number, the first ones of every number being alike.
fn letters(mut number: usize, count: usize) -> String {
    let mut letters = vec!['a'; count];
    for letter in letters.iter_mut().rev() {
        *letter = char::from(LETTERS[number % LETTERS.len()]);
        number /= LETTERS.len();
    }
    letters.into_iter().collect()
}

/// A name of three bytes; 250,047 numbers have different ones.
pub fn short(number: usize) -> String {
    letters(number, 3)
}

/// A name of 250 bytes; all are alike but for the last two bytes, which differ for 3,969 numbers.
pub fn long(number: usize) -> String {
    "n".repeat(248) + &letters(number, 2)
}

/// Names with a number behind a word.
pub fn numbered(word: &str, count: usize) -> impl Iterator<Item = String> {
    (0..count).map(move |number| format!("{word}{number}"))
}

/// A name with so many dots and a letter before, between and behind them.
pub fn with_dots(dots: usize) -> String {
    after_dots(dots, 0)
}

/// What stands behind the first dots of such a name.
pub fn after_dots(dots: usize, passed: usize) -> String {
    let parts: Vec<String> = (passed.min(dots)..=dots)
        .map(|part| letters(part, 1))
        .collect();
    parts.join(".")
}

#[cfg(test)]
mod tests {
    use super::*;
    use std::collections::BTreeSet;

    #[test]
    fn names_have_their_lengths_and_differ() {
        let short: BTreeSet<String> = (0..250_047).map(short).collect();
        assert!(short.len() == 250_047 && short.iter().all(|name| name.len() == 3));
        let long: BTreeSet<String> = (0..3969).map(long).collect();
        assert!(long.len() == 3969 && long.iter().all(|name| name.len() == 250));
    }

    #[test]
    fn dots_are_counted_and_passed() {
        assert_eq!(with_dots(2), "a.b.c");
        assert_eq!(
            [1, 2, 9].map(|passed| after_dots(2, passed)),
            ["b.c", "c", "c"]
        );
        assert_eq!(with_dots(16).matches('.').count(), 16);
    }
}
