//! Different names with one hash, for the hash by which the validator's sets of names place them.

use std::sync::LazyLock;

/// What every step of the hash multiplies by, and the number that undoes it.
const FACTOR: u32 = 2_654_435_761;
const UNDONE: u32 = inverse(FACTOR);

/// Where the hash of a word starts.
pub const START: u32 = 2_166_136_261;

/// The letters of the names.
const LETTERS: &[u8; 32] = b"abcdefghijklmnopqrstuvwxyz012345";

/// How many letters half a block has, and how many different halves there are.
const HALF: usize = 4;
const HALVES: u32 = 1 << (5 * HALF);

/// The block whose hash the others have.
const MODEL: &[u8; 2 * HALF] = b"aaaabbbb";

/// The blocks with the hash of the model, made once.
static BLOCKS: LazyLock<Vec<String>> = LazyLock::new(blocks);

/// The number by which an odd number makes 1, in 32 bits.
const fn inverse(odd: u32) -> u32 {
    let mut inverse = odd;
    let mut bits = 3;
    while bits < 32 {
        inverse = inverse.wrapping_mul(2u32.wrapping_sub(odd.wrapping_mul(inverse)));
        bits *= 2;
    }
    inverse
}

/// The hash of a word that goes on from another hash. Words of one length that have one hash from
/// one start have one from every start, since each step multiplies what differs by the same factor.
pub fn hash_on(start: u32, word: &[u8]) -> u32 {
    word.iter().fold(start, |hash, byte| {
        hash.wrapping_add(u32::from(*byte)).wrapping_mul(FACTOR)
    })
}

/// The start from which a word leads to a hash.
fn hash_before(hash: u32, word: &[u8]) -> u32 {
    word.iter().rev().fold(hash, |hash, byte| {
        hash.wrapping_mul(UNDONE).wrapping_sub(u32::from(*byte))
    })
}

/// How many names there are.
pub fn count() -> usize {
    BLOCKS.len() * BLOCKS.len()
}

/// A name of two blocks; each number below the count has another, and all have one hash.
pub fn name(number: usize) -> String {
    let blocks = &*BLOCKS;
    let [first, second] = [number / blocks.len(), number % blocks.len()];
    format!("{}{}", blocks[first % blocks.len()], blocks[second])
}

/// The letters of half a block by its number.
fn half(number: u32) -> [u8; HALF] {
    std::array::from_fn(|at| LETTERS[(number >> (5 * at)) as usize % LETTERS.len()])
}

/// All blocks with the hash of the model: halves that meet at one hash.
fn blocks() -> Vec<String> {
    let met = |number: u32| (hash_on(START, &half(number)), number);
    let mut firsts: Vec<(u32, u32)> = (0..HALVES).map(met).collect();
    firsts.sort_unstable();
    let wanted = hash_on(START, MODEL);
    let mut blocks = Vec::new();
    for second in (0..HALVES).map(half) {
        let hash = hash_before(wanted, &second);
        let from = firsts.partition_point(|(other, _)| *other < hash);
        let meeting = firsts[from..]
            .iter()
            .take_while(|(other, _)| *other == hash);
        for (_, first) in meeting {
            let block = [half(*first), second].concat();
            blocks.push(block.into_iter().map(char::from).collect());
        }
    }
    blocks
}

#[cfg(test)]
mod tests {
    use super::*;
    use std::collections::BTreeSet;

    #[test]
    fn a_step_can_be_undone() {
        assert_eq!(FACTOR.wrapping_mul(UNDONE), 1);
        let hash = hash_on(START, b"hall");
        assert_eq!(hash_before(hash, b"hall"), START);
        let step = u64::from(START.wrapping_add(7)) * u64::from(FACTOR);
        assert_eq!(hash_on(START, &[7]), (step % (1 << 32)) as u32);
    }

    #[test]
    fn names_differ_and_have_one_hash_from_every_start() {
        assert!(count() > 40_000, "{}", count());
        let names: BTreeSet<String> = (0..count()).map(name).collect();
        assert_eq!(names.len(), count());
        let starts = [0, 1, 2, 3].map(|class| hash_on(START, &[class]));
        for start in [&starts[..], &[START, 0, 77]].concat() {
            let hash = hash_on(start, name(0).as_bytes());
            assert!(
                names
                    .iter()
                    .all(|one| hash_on(start, one.as_bytes()) == hash)
            );
        }
    }
}
