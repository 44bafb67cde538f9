//! The words of a text: registers, conditions and names of labels.

/// The registers, each at the place of its number.
const REGISTERS: [&str; 16] = [
    "R0", "R1", "R2", "R3", "R4", "R5", "R6", "R7", "R8", "R9", "R10", "R11", "R12", "R13", "R14",
    "R15",
];

/// The conditions of a branch, each at the place of its number.
const CONDITIONS: [&str; 14] =
    ["EQ", "NE", "CS", "CC", "MI", "PL", "VS", "VC", "HI", "LS", "GE", "LT", "GT", "LE"];

/// Most letters and digits of a label.
const LABEL_LETTERS: usize = 8;

/// The number of the register that a word names.
pub fn register(word: &str) -> Option<u8> {
    place_in(&REGISTERS, word)
}

/// The number of the register that a word names, if three bits hold it.
pub fn low_register(word: &str) -> Option<u8> {
    register(word).filter(|&number| is_low(number))
}

/// Whether three bits hold a register's number.
pub fn is_low(register: u8) -> bool {
    register < 8
}

/// The number of the condition that a word names.
pub fn condition(word: &str) -> Option<u8> {
    place_in(&CONDITIONS, word)
}

/// The word for a condition, 0 to 13.
pub fn condition_name(number: u8) -> &'static str {
    CONDITIONS[usize::from(number)]
}

/// A word, if it can be a label's name.
pub fn label(word: &str) -> Option<&str> {
    let permitted = |byte: u8| byte.is_ascii_lowercase() || byte.is_ascii_digit();
    let is_label = word.starts_with(|first: char| first.is_ascii_lowercase())
        && word.len() <= LABEL_LETTERS
        && word.bytes().all(permitted);
    is_label.then_some(word)
}

fn place_in(names: &[&str], word: &str) -> Option<u8> {
    names.iter().position(|&name| name == word).map(|place| place as u8)
}
