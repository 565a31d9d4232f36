//! Words of a watch state: sixteen numbers of four bits each, the first in the lowest four.

/// The sixteen numbers of a word, in order.
pub fn numbers(word: u64) -> [u8; 16] {
    std::array::from_fn(|place| (word >> (4 * place)) as u8 & 15)
}

/// The word of these numbers; of each its lowest four bits count.
pub fn word(numbers: [u8; 16]) -> u64 {
    numbers.iter().rev().fold(0, |word, number| word << 4 | u64::from(number & 15))
}
